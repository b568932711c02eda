// A try at `leaving`: activity 1 leaves the clock as soon as it has no more to wait for.
def main() {
    val c = Clock.make();
    async clocked(c) {
        Console.OUT.println(1);
        Clock.advanceAll();
        c.drop();
        Console.OUT.println(11);
        Console.OUT.println(91);
    }
    async clocked(c) {
        Console.OUT.println(2);
        Clock.advanceAll();
        Console.OUT.println(12);
        Clock.advanceAll();
        Console.OUT.println(22);
    }
}
