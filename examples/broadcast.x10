// Main writes in phase 0, three activities read in phase 1: all see the number, whoever goes first.
// They print 100 * who + what they read; main prints 7 when it has written.
shared news = 0;

def main() {
    val c = Clock.make();
    for (who in 1..3) async clocked(c) {
        Clock.advanceAll();
        val heard = news;
        Console.OUT.println(100 * who + heard);
    }
    news = 7;
    Console.OUT.println(7);
    Clock.advanceAll();
}
