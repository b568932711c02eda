// 1 2 3 4 become 1 3 6 10 in two rounds: first each adds the number before it, then the one two places before.
// In the first round all read, wait, and write. Who reads a written number in the second waits once more.
shared a = 1;
shared b = 2;
shared c = 3;
shared d = 4;

def main() {
    clocked finish {
        clocked async {
            val left = a;
            val own = b;
            Clock.advanceAll();
            b = left + own;
        }
        clocked async {
            val left = b;
            val own = c;
            Clock.advanceAll();
            val first = a;
            c = first + left + own;
        }
        clocked async {
            val left = c;
            val own = d;
            Clock.advanceAll();
            Clock.advanceAll();
            val second = b;
            d = second + left + own;
        }
    }
    val w = a;
    val x = b;
    val y = c;
    val z = d;
    Console.OUT.println(w);
    Console.OUT.println(x);
    Console.OUT.println(y);
    Console.OUT.println(z);
}
