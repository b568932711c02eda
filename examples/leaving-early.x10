// Activity 1 drops the clock in phase 1; the others don't wait for it any more and go on to phase 3.
// Each prints 10 * phase + who, and 1 goes on alone: its 91 can come anywhere behind its 11.
def main() {
    val c = Clock.make();
    async clocked(c) {
        Console.OUT.println(1);
        Clock.advanceAll();
        Console.OUT.println(11);
        c.drop();
        Console.OUT.println(91);
    }
    for (who in 2..3) async clocked(c) {
        for (phase in 0..3) {
            Console.OUT.println(10 * phase + who);
            Clock.advanceAll();
        }
    }
}
