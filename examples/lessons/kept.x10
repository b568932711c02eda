// Refused: main keeps its clock up to the end of the finish.
def main() {
    finish {
        val c = Clock.make();
        async clocked(c) {
            Console.OUT.println(1);
            Clock.advanceAll();
            Console.OUT.println(11);
        }
    }
    Console.OUT.println(99);
}
