// A try at `turns`: the second waits once before each number, and the first once after each.
def main() {
    clocked finish {
        clocked async for (k in 0..2) {
            Console.OUT.println(2 * k + 1);
            Clock.advanceAll();
        }
        clocked async for (k in 0..2) {
            Clock.advanceAll();
            Console.OUT.println(2 * k + 2);
        }
    }
}
