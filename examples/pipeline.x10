// Numbers 1 to 3 go down a pipeline: station 1 adds 10, station 2 doubles, and main, station 3, prints. All work at once, each on another number.
// A round has two halves: all read what the station before left, then all write. A station prints 1000 * station + what it read.
shared first = 0;
shared second = 0;
shared third = 0;

def main() {
    val c = Clock.make();
    async clocked(c) for (round in 1..6) {
        Clock.advanceAll();
        if (round <= 3) first = round; else first = 0;
        Clock.advanceAll();
    }
    async clocked(c) for (round in 1..6) {
        val got = first;
        if (got != 0) Console.OUT.println(1000 + got);
        Clock.advanceAll();
        if (got != 0) second = got + 10; else second = 0;
        Clock.advanceAll();
    }
    async clocked(c) for (round in 1..6) {
        val got = second;
        if (got != 0) Console.OUT.println(2000 + got);
        Clock.advanceAll();
        third = got * 2;
        Clock.advanceAll();
    }
    for (round in 1..6) {
        val got = third;
        if (got != 0) Console.OUT.println(3000 + got);
        Clock.advanceAll();
        Clock.advanceAll();
    }
}
