def work(n: Long, c: Clock) {
    Clock.advanceAll();
}

def main() {
    val c = Clock.make();
    async clocked (c) work(c, 1);
    Clock.advanceAll();
}
