// A try at `signal`: main says first that it won't keep anybody waiting, and then prints its numbers.
def main() {
    val c = Clock.make();
    async clocked(c) {
        Clock.advanceAll();
        Console.OUT.println(3);
    }
    c.resume();
    Console.OUT.println(1);
    Console.OUT.println(2);
}
