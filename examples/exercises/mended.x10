// lessons/kept.x10, mended: main leaves its clock before the end of the finish.
def main() {
    finish {
        val c = Clock.make();
        async clocked(c) {
            Console.OUT.println(1);
            Clock.advanceAll();
            Console.OUT.println(11);
        }
        c.drop();
    }
    Console.OUT.println(99);
}
