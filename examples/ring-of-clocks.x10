// Three activities in a ring; neighbours share a clock: 1 and 2 have a, 2 and 3 have b, 3 and 1 have c.
// advanceAll waits on both clocks of an activity at once, so that nobody waits in a circle. They print 10 * phase + who.
def main() {
    val a = Clock.make();
    val b = Clock.make();
    val c = Clock.make();
    async clocked(c, a) for (phase in 0..2) { Console.OUT.println(10 * phase + 1); Clock.advanceAll(); }
    async clocked(a, b) for (phase in 0..2) { Console.OUT.println(10 * phase + 2); Clock.advanceAll(); }
    async clocked(b, c) for (phase in 0..2) { Console.OUT.println(10 * phase + 3); Clock.advanceAll(); }
}
