def main() {
    val c = Clock.make();
    async clocked(c) {
        Clock.advanceAll();
        Console.OUT.println(2);
    }
    Clock.advanceAll();
    Console.OUT.println(1);
}
