// Two groups with a clock each: 1 and 2 are in step, and 3 and 4, but no group waits for the other.
// They print 10 * phase + who. In the order first the first group is done before the second one begins.
def main() {
    val a = Clock.make();
    val b = Clock.make();
    for (who in 1..2) async clocked(a) for (phase in 0..1) { Console.OUT.println(10 * phase + who); Clock.advanceAll(); }
    for (who in 3..4) async clocked(b) for (phase in 0..1) { Console.OUT.println(10 * phase + who); Clock.advanceAll(); }
}
