// Refused: as clock-inside-a-finish, but for the clock, which is made outside and handed on in the finish.
// Main would wait for the activities at the end of the finish, and they for main on the clock, for ever.
def main() {
    val c = Clock.make();
    finish {
        for (who in 1..2) async clocked(c) {
            Console.OUT.println(who);
            Clock.advanceAll();
            Console.OUT.println(10 + who);
        }
    }
    c.drop();
    Console.OUT.println(99);
}
