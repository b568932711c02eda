// Numbers 1 to n, five at most, go down a pipeline: station 1 puts them in, station 2 squares, and main, station 3, prints the squares.
// A round has two halves: all read what the station before left, then all write. Each station has a round more than the one before.
shared first = 0;
shared second = 0;

def main(n: Long) {
    val c = Clock.make();
    async clocked(c) for (round in 1..Math.min(n, 5)) {
        Clock.advanceAll();
        first = round;
        Clock.advanceAll();
    }
    async clocked(c) for (round in 1..Math.min(n + 1, 6)) {
        val got = first;
        Clock.advanceAll();
        second = got * got;
        Clock.advanceAll();
    }
    for (round in 1..Math.min(n + 2, 7)) {
        val got = second;
        if (round > 2) Console.OUT.println(got);
        Clock.advanceAll();
        Clock.advanceAll();
    }
}
