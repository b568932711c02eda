// Both read in phase 0, and both write in phase 1: neither reads what the other has written.
shared a = 1;
shared b = 2;

def main() {
    clocked finish {
        clocked async {
            val seen = b;
            Clock.advanceAll();
            a = seen;
        }
        clocked async {
            val seen = a;
            Clock.advanceAll();
            b = seen;
        }
    }
    val x = a;
    val y = b;
    Console.OUT.println(x);
    Console.OUT.println(y);
}
