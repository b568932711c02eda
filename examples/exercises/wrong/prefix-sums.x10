// A try at `prefix-sums`: all wait once between what they read and what they write.
shared a = 1;
shared b = 2;
shared c = 3;
shared d = 4;

def main() {
    clocked finish {
        clocked async {
            val left = a;
            val own = b;
            Clock.advanceAll();
            b = left + own;
        }
        clocked async {
            val left = b;
            val own = c;
            Clock.advanceAll();
            val first = a;
            c = first + left + own;
        }
        clocked async {
            val left = c;
            val own = d;
            Clock.advanceAll();
            val second = b;
            d = second + left + own;
        }
    }
    val w = a;
    val x = b;
    val y = c;
    val z = d;
    Console.OUT.println(w);
    Console.OUT.println(x);
    Console.OUT.println(y);
    Console.OUT.println(z);
}
