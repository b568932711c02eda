// A try at `swap`: each reads the other's number and writes it, and then waits for the other.
shared a = 1;
shared b = 2;

def main() {
    clocked finish {
        clocked async {
            val seen = b;
            a = seen;
            Clock.advanceAll();
        }
        clocked async {
            val seen = a;
            b = seen;
            Clock.advanceAll();
        }
    }
    val x = a;
    val y = b;
    Console.OUT.println(x);
    Console.OUT.println(y);
}
