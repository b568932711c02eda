// Three activities go through three phases. The clock is that of the finish: main only starts them, drops it, and waits for all.
// Each prints 10 * phase + who: the tens never fall, and within a phase the order is that of the steps. Main prints 99 at the end.
def main() {
    clocked finish for (who in 1..3) clocked async {
        for (phase in 0..2) {
            Console.OUT.println(10 * phase + who);
            Clock.advanceAll();
        }
    }
    Console.OUT.println(99);
}
