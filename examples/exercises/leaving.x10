// Activity 1 leaves the clock in phase 1: activity 2 goes on to phase 2 without waiting for its 91.
def main() {
    val c = Clock.make();
    async clocked(c) {
        Console.OUT.println(1);
        Clock.advanceAll();
        Console.OUT.println(11);
        c.drop();
        Console.OUT.println(91);
    }
    async clocked(c) {
        Console.OUT.println(2);
        Clock.advanceAll();
        Console.OUT.println(12);
        Clock.advanceAll();
        Console.OUT.println(22);
    }
}
