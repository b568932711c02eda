// A try at `relay`: each waits once for the one before it.
def main() {
    val a = Clock.make();
    val b = Clock.make();
    async clocked(a) {
        Console.OUT.println(1);
        Clock.advanceAll();
    }
    async clocked(a, b) {
        Clock.advanceAll();
        Console.OUT.println(2);
    }
    async clocked(b) {
        Clock.advanceAll();
        Console.OUT.println(3);
    }
}
