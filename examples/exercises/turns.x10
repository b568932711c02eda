// The first activity prints in the even phases, the second in the odd ones.
def main() {
    clocked finish {
        clocked async for (k in 0..2) {
            Console.OUT.println(2 * k + 1);
            Clock.advanceAll();
            Clock.advanceAll();
        }
        clocked async for (k in 0..2) {
            Clock.advanceAll();
            Console.OUT.println(2 * k + 2);
            Clock.advanceAll();
        }
    }
}
