// One clock is given to an activity, and one to a method.
def join(c: Clock) {
    c.resume();
}

def main() {
    val c = Clock.make();
    val d = Clock.make();
    if (1 < 2) { async clocked (c) Clock.advanceAll(); }
    join(d);
    Clock.advanceAll();
}
