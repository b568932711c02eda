// Main makes a clock. Activity 1 is on it from the start, and leaves it in phase 2; activity 2 joins it in phase 1; main ends in phase 3.
// The chart tells who is registered when the clock goes on; the numbers, 10 * phase + who, come as they may within each phase.
def main() {
    val c = Clock.make();
    async clocked(c) {
        for (phase in 0..1) {
            Console.OUT.println(10 * phase + 1);
            Clock.advanceAll();
        }
        c.drop();
        Console.OUT.println(21);
    }
    Console.OUT.println(0);
    Clock.advanceAll();
    async clocked(c) {
        for (phase in 1..3) {
            Console.OUT.println(10 * phase + 2);
            Clock.advanceAll();
        }
    }
    for (phase in 1..3) {
        Console.OUT.println(10 * phase);
        if (phase < 3) { Clock.advanceAll(); }
    }
}
