// The stencil with one barrier a round instead of two: who steps later reads what its neighbour wrote in this round already.
// Accepted all the same, as nothing waits for ever and no clock is misused; but the numbers depend on the order.
shared a = 1;
shared b = 0;
shared c = 0;
shared d = 0;

def main() {
    clocked finish {
        clocked async for (round in 1..4) {
            val left = a;
            val right = c;
            b = left + right;
            Console.OUT.println(2000 + 100 * round + left + right);
            Clock.advanceAll();
        }
        clocked async for (round in 1..4) {
            val left = b;
            val right = d;
            c = left + right;
            Console.OUT.println(3000 + 100 * round + left + right);
            Clock.advanceAll();
        }
    }
}
