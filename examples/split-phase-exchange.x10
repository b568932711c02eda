// Two activities swap numbers: each puts its own, resumes, works on alone, and only then waits for the other with advanceAll.
// Who prints 1 or 2 has put and goes on working; 12 and 21 are what they got, and come behind both puts.
shared mine = 0;
shared yours = 0;

def main() {
    val c = Clock.make();
    async clocked(c) {
        mine = 12;
        c.resume();
        Console.OUT.println(1);
        Clock.advanceAll();
        val got = yours;
        Console.OUT.println(got);
    }
    yours = 21;
    c.resume();
    Console.OUT.println(2);
    Clock.advanceAll();
    val got = mine;
    Console.OUT.println(got);
}
