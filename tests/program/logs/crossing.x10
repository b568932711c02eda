// Eight activities on three clocks, each on two or three of them; all reckon before and behind their resume, and main drops its clocks meanwhile.
def work(c: Clock, d: Clock, n: Long) {
    for (p in 1..5) {
        var x = n;
        for (k in 1..2500) x = x + k;
        c.resume();
        for (k in 1..800) x = x - k;
        Clock.advanceAll();
        Console.OUT.println(x);
    }
}
def main() {
    val a = Clock.make();
    val b = Clock.make();
    val e = Clock.make();
    async clocked(a, b) work(a, b, 1);
    async clocked(b, e) work(b, e, 2);
    async clocked(e, a) work(e, a, 3);
    async clocked(b, e) {
        work(e, b, 4);
        b.drop();
        Clock.advanceAll();
    }
    for (i in 1..4) async clocked(a, b, e) work(b, a, i);
    a.drop();
    for (k in 1..5000) ;
    b.drop();
    e.drop();
}
