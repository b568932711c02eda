// Each of the numbers 1, 2, 3, 4 becomes the sum of all up to it, in two rounds: in the first each adds its neighbour's, in the second the one's
// two places off. In a round all read, wait, write, and wait. With `--arg 0` and `--arg 1` one sees how far they are after so many rounds.
shared a = 1;
shared b = 2;
shared c = 3;
shared d = 4;

def main(rounds: Long) {
    clocked finish {
        clocked async for (round in 1..Math.min(rounds, 1)) {
            val own = b;
            val left = a;
            Clock.advanceAll();
            b = own + left;
        }
        clocked async for (round in 1..Math.min(rounds, 2)) {
            val own = c;
            var left = 0;
            if (round == 1) left = b; else left = a;
            Clock.advanceAll();
            c = own + left;
            Clock.advanceAll();
        }
        clocked async for (round in 1..Math.min(rounds, 2)) {
            val own = d;
            var left = 0;
            if (round == 1) left = c; else left = b;
            Clock.advanceAll();
            d = own + left;
            Clock.advanceAll();
        }
    }
    val w = a;
    val x = b;
    val y = c;
    val z = d;
    Console.OUT.println(w);
    Console.OUT.println(x);
    Console.OUT.println(y);
    Console.OUT.println(z);
}
