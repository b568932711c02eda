// Four numbers are summed in two phases: two activities add a neighbour's number to their own, then one of them adds the other's sum.
// Who adds prints 1000 * round + 100 * the place of its number + the sum; main prints the whole one.
shared a = 1;
shared b = 2;
shared c = 3;
shared d = 4;

def main() {
    finish {
        val step = Clock.make();
        async clocked(step) {
            val x = a;
            val y = b;
            a = x + y;
            Console.OUT.println(1100 + (x + y));
            Clock.advanceAll();
            val left = a;
            val right = c;
            a = left + right;
            Console.OUT.println(2100 + (left + right));
        }
        async clocked(step) {
            val x = c;
            val y = d;
            c = x + y;
            Console.OUT.println(1300 + (x + y));
        }
        step.drop();
    }
    val sum = a;
    Console.OUT.println(sum);
}
