// Refused: a method makes a clock and ends without dropping it; nobody could drop it any more, and others would wait for it.
// Main and the bodies of async need not drop theirs: with their end they are registered nowhere.
def pair() {
    val c = Clock.make();
    async clocked(c) {
        Console.OUT.println(2);
        Clock.advanceAll();
        Console.OUT.println(12);
    }
    Console.OUT.println(1);
    Clock.advanceAll();
    Console.OUT.println(11);
}

def main() {
    pair();
}
