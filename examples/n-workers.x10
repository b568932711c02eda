// So many workers, eight at most, go through so many phases, four at most: `run --arg 3 --arg 2` has three workers and two phases.
// The verifier counts with eight and four, whatever is given. They print 10 * phase + who, and the tens never fall.
def main(workers: Long, phases: Long) {
    val step = Clock.make();
    for (who in 1..Math.min(workers, 8)) {
        async clocked(step) {
            for (phase in 1..Math.min(phases, 4)) {
                Console.OUT.println(10 * phase + who);
                Clock.advanceAll();
            }
        }
    }
}
