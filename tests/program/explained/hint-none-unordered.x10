// Something orders these, or may: a finish, an advance, a call, or that one stands in a branch or in a loop that may have no turn. Of two
// reads and of two additions nobody sees the order, and what an activity does itself it does in order.
shared a = 0;
shared b = 0;
shared c = 0;
shared d = 0;
shared e = 0;
shared f = 0;
shared g = 5;

def waits() { Clock.advanceAll(); }

def main(n: Long) {
    finish {
        finish async a = 1;
        async { val seen = a; a = seen + 1; }
    }
    clocked finish {
        clocked async { b = 1; Clock.advanceAll(); c = 1; Clock.advanceAll(); }
        clocked async { Clock.advanceAll(); val seen = b; Clock.advanceAll(); val more = c; Console.OUT.println(seen + more); }
    }
    clocked finish {
        async { waits(); d = 1; }
        clocked async { waits(); d = 2; }
        Clock.advanceAll();
        clocked async { val seen = d; Console.OUT.println(seen); }
    }
    finish {
        async { if (n < 5) e = 1; for (i in 1..Math.min(n, 3)) { e = 2; } atomic f = f + 1; val seen = g; Console.OUT.println(seen); }
        async { atomic f = f + n; val seen = e; val more = g; Console.OUT.println(seen + more); }
        if (n == 2) { async e = 3; }
    }
    finish { async { async e = 1; } async { finish { } e = 2; } }
    val left = f;
    Console.OUT.println(left);
}
