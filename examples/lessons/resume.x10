// Main (0) says that its part of phase 0 is done, works on, and comes to the clock when it has printed 5.
def main() {
    val c = Clock.make();
    async clocked(c) {
        Console.OUT.println(1);
        Clock.advanceAll();
        Console.OUT.println(11);
    }
    Console.OUT.println(0);
    c.resume();
    Console.OUT.println(5);
    Clock.advanceAll();
    Console.OUT.println(10);
}
