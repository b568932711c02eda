// Main is alone on its clock, so that its resume advances it; the activity that it then starts stands where main stands: ahead.
// Neither waits at its first advanceAll, and both do at the second. Main (1) and the activity (2) print 10 * the advanceAlls
// behind them + who.
def main() {
    val c = Clock.make();
    c.resume();
    async clocked(c) {
        Clock.advanceAll();
        Console.OUT.println(12);
        Clock.advanceAll();
        Console.OUT.println(22);
    }
    Clock.advanceAll();
    Console.OUT.println(11);
    Clock.advanceAll();
    Console.OUT.println(21);
}
