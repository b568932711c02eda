// Nobody is on the clocks but main, which resumes one and waits for both.
def main() {
    val c = Clock.make();
    val d = Clock.make();
    c.resume();
    Clock.advanceAll();
    d.drop();
}
