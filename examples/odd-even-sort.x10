// Four numbers are sorted by phases: in 0 and 2 each of two activities puts an outer pair in order, in 1 and 3 one of them the inner pair.
// Who swaps prints 100 * phase + 10 * the place of the pair, and main prints the four numbers at the end.
shared a = 4;
shared b = 3;
shared c = 2;
shared d = 1;

def main() {
    clocked finish {
        clocked async for (round in 0..1) {
            val left = a;
            val right = b;
            if (left > right) { a = right; b = left; Console.OUT.println(200 * round + 10); }
            Clock.advanceAll();
            Clock.advanceAll();
        }
        clocked async for (round in 0..1) {
            val left = c;
            val right = d;
            if (left > right) { c = right; d = left; Console.OUT.println(200 * round + 30); }
            Clock.advanceAll();
            val middle = b;
            val next = c;
            if (middle > next) { b = next; c = middle; Console.OUT.println(200 * round + 120); }
            Clock.advanceAll();
        }
    }
    val w = a; val x = b; val y = c; val z = d;
    Console.OUT.println(1000 * w + 100 * x + 10 * y + z);
}
