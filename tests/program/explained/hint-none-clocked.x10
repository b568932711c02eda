// All are on the clock: one that a `clocked async` starts, and one that this one starts.
def main() {
    clocked finish {
        for (who in 1..2) clocked async {
            clocked async Clock.advanceAll();
            Clock.advanceAll();
            Console.OUT.println(10 + who);
        }
    }
}
