// Who has resumed doesn't hold the others up: main resumes at once and works long, the other two are in phase 1 before it.
// They print 10 * phase + who. Main prints 100 to 102 as it works, and 10 when it goes on itself: they may be further by then.
def main() {
    val c = Clock.make();
    for (who in 1..2) async clocked(c) {
        Console.OUT.println(who);
        Clock.advanceAll();
        Console.OUT.println(10 + who);
    }
    c.resume();
    for (work in 100..102) Console.OUT.println(work);
    Clock.advanceAll();
    Console.OUT.println(10);
}
