// Main starts activity 1 in phase 0, and activity 2 in phase 1. Then it leaves the clock, as activity 1 does.
// Each prints 10 * phase + who; activity 1 prints 91 when it has left.
def main() {
    val c = Clock.make();
    async clocked(c) {
        Console.OUT.println(1);
        Clock.advanceAll();
        Console.OUT.println(11);
        c.drop();
        Console.OUT.println(91);
    }
    Clock.advanceAll();
    async clocked(c) {
        Console.OUT.println(12);
        Clock.advanceAll();
        Console.OUT.println(22);
    }
    c.drop();
}
