// 1 and 2 share clock a, 2 and 3 share clock b. Activity 3 waits for the second phase of b, when 2 has printed.
def main() {
    val a = Clock.make();
    val b = Clock.make();
    async clocked(a) {
        Console.OUT.println(1);
        Clock.advanceAll();
    }
    async clocked(a, b) {
        Clock.advanceAll();
        Console.OUT.println(2);
        Clock.advanceAll();
    }
    async clocked(b) {
        Clock.advanceAll();
        Clock.advanceAll();
        Console.OUT.println(3);
    }
}
