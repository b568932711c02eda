// Each name is used, if only in a body, a bound, a condition, a call, or behind a block that has the name too.
shared s = 0;
shared t = 0;
shared constant = 1;

def step(n: Long, c: Clock) {
    atomic s = s + n;
    c.resume();
    again(c);
}

def wait(c: Clock) {
    if (1 == 1) Clock.advanceAll();
}

def pass(c: Clock) {
    rest();
}

def rest() {
    Clock.advanceAll();
}

def again(c: Clock) {
    async clocked (c) Clock.advanceAll();
}

def main(n: Long) {
    finish {
        val c = Clock.make();
        val least = 2;
        val inner = 3;
        var bound = n;
        bound = bound + 1;
        { val x = 1; Console.OUT.println(x); }
        val x = 4;
        async { t = inner; }
        for (i in 1..Math.min(bound, 3)) if (least < x) step(1, c);
        wait(c);
        pass(c);
        c.resume();
        ;
        Clock.advanceAll();
        c.drop();
    }
    val u = s;
    val w = constant;
    var v = t;
    v = u + v * w;
    Console.OUT.println(-(v * 2));
}
