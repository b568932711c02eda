// A method is lent the clock of who calls it: it may wait for it, and start activities on it, but not drop it.
// Main (1), an activity (2) and one that the method starts for each of them (+ 5) print 10 * phase + who.
def work(who: Long, c: Clock) {
    async clocked(c) {
        Console.OUT.println(who + 5);
        Clock.advanceAll();
        Console.OUT.println(15 + who);
    }
    Console.OUT.println(who);
    Clock.advanceAll();
    Console.OUT.println(10 + who);
}

def main() {
    val c = Clock.make();
    async clocked(c) work(2, c);
    work(1, c);
}
