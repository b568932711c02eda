def work() {
    c.resume();
    Clock.advanceAll();
}

def main() {
    val c = Clock.make();
    async clocked (c) work();
    c.drop();
}
