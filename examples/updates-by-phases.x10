// The repair of lost-updates by phases: activity 1 has phase 0 for itself, activity 2 phase 1, activity 3 phase 2.
// Whoever steps first, they read 0, 1 and 2 in this order, and 3 is left. Each prints 10 * what it read + who.
shared count = 0;

def turn(who: Long) {
    val seen = count;
    Console.OUT.println(10 * seen + who);
    count = seen + 1;
}

def main() {
    finish {
        val c = Clock.make();
        for (who in 1..3) async clocked(c) {
            for (phase in 0..2) {
                if (phase == who - 1) turn(who);
                Clock.advanceAll();
            }
        }
        c.drop();
    }
    val left = count;
    Console.OUT.println(left);
}
