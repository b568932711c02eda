// In the order `last` the activity (2) comes to the clock first, and is held back there until main (1) comes too.
def main() {
    val c = Clock.make();
    async clocked(c) {
        Clock.advanceAll();
        Console.OUT.println(2);
    }
    Console.OUT.println(1);
    Clock.advanceAll();
}
