// Activities that were started beside one another meet in shared numbers before they may wait, on clocks or on none. Each number is told
// once: where it is first met in the text.
shared a = 0;
shared b = 0;
shared c = 0;
shared d = 0;
shared e = 0;
shared f = 0;

def cells() {
    clocked finish {
        clocked async for (round in 1..2) { val right = d; c = right; Clock.advanceAll(); }
        val between = 1;
        Console.OUT.println(between);
        clocked async { for (round in 1..2) { val left = c; d = left + between; Clock.advanceAll(); } }
    }
}

def main() {
    finish {
        async { a = 1; val seen = b; Console.OUT.println(seen); }
        async { b = 1; val seen = a; Console.OUT.println(seen); }
    }
    cells();
    if (1 < 2) {
        finish {
            async finish { atomic e = e + 1; }
            async { f = 1; e = 2; }
            async { f = 2; atomic e = e + 1; }
        }
    }
    val left = e;
    val more = f;
    Console.OUT.println(left + more);
}
