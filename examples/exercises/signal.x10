// Main says with `resume` that 1 is printed, and prints 2 when it likes: activity 1 doesn't wait for that.
def main() {
    val c = Clock.make();
    async clocked(c) {
        Clock.advanceAll();
        Console.OUT.println(3);
    }
    Console.OUT.println(1);
    c.resume();
    Console.OUT.println(2);
}
