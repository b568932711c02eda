// A try at `mended`: it is the finish that was complained of, so it goes.
def main() {
    val c = Clock.make();
    async clocked(c) {
        Console.OUT.println(1);
        Clock.advanceAll();
        Console.OUT.println(11);
    }
    c.drop();
    Console.OUT.println(99);
}
