// Two activities take turns by phases: 1 plays in the even ones, 2 in the odd ones, with a ball that is counted up.
// Each prints 10 * ball + who: the balls come in order whoever steps first.
shared ball = 0;

def play(who: Long) {
    val seen = ball;
    Console.OUT.println(10 * seen + who);
    ball = seen + 1;
}

def main() {
    val c = Clock.make();
    async clocked(c) for (turn in 1..3) { play(1); Clock.advanceAll(); Clock.advanceAll(); }
    async clocked(c) for (turn in 1..3) { Clock.advanceAll(); play(2); Clock.advanceAll(); }
}
