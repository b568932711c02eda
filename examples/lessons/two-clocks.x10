// Main (0) is on both clocks, activity 1 on `a` alone, activity 2 on `b` alone. Each prints 10 * phase + who.
def main() {
    val a = Clock.make();
    val b = Clock.make();
    async clocked(a) {
        Console.OUT.println(1);
        Clock.advanceAll();
        Console.OUT.println(11);
    }
    async clocked(b) {
        Console.OUT.println(2);
        Clock.advanceAll();
        Console.OUT.println(12);
    }
    Clock.advanceAll();
    Console.OUT.println(10);
}
