shared x = 0;

def main() {
    val c = Clock.make();
    async clocked (c) {
        c.resume();
        x = 1;
        c.drop();
    }
    Clock.advanceAll();
    Clock.advanceAll();
    val got = x;
    Console.OUT.println(got);
    c.drop();
}
