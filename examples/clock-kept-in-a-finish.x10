// Refused: as clock-inside-a-finish, but main doesn't drop its clock before the end of the finish.
// It would wait there for the activity, and the activity for main on the clock.
def main() {
    finish {
        val c = Clock.make();
        async clocked(c) {
            Console.OUT.println(1);
            Clock.advanceAll();
            Console.OUT.println(11);
        }
    }
    Console.OUT.println(99);
}
