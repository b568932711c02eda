// Main starts activity 1 in phase 0, 2 in phase 1 and 3 in phase 2: who is started later begins in the phase that main is in.
// Each prints 10 * phase + who, main (0) too, up to phase 3.
def main() {
    val c = Clock.make();
    async clocked(c) for (phase in 0..3) { Console.OUT.println(10 * phase + 1); Clock.advanceAll(); }
    Console.OUT.println(0);
    Clock.advanceAll();
    async clocked(c) for (phase in 1..3) { Console.OUT.println(10 * phase + 2); Clock.advanceAll(); }
    Console.OUT.println(10);
    Clock.advanceAll();
    async clocked(c) for (phase in 2..3) { Console.OUT.println(10 * phase + 3); Clock.advanceAll(); }
    Console.OUT.println(20);
    Clock.advanceAll();
    Console.OUT.println(30);
}
