// Four numbers that are given are put in order, as in odd-even-sort: in odd phases the outer pairs, in even ones the inner pair, by two
// activities. Arguments are numbers like any others: `run --arg 30 --arg=-1 --arg 4 --arg 1` prints -1, 1, 4, 30.
shared a = 0;
shared b = 0;
shared c = 0;
shared d = 0;

def main(w: Long, x: Long, y: Long, z: Long) {
    a = w;
    b = x;
    c = y;
    d = z;
    clocked finish {
        clocked async for (round in 1..2) {
            val left = a;
            val right = b;
            if (left > right) { a = right; b = left; }
            Clock.advanceAll();
            Clock.advanceAll();
        }
        clocked async for (round in 1..2) {
            val left = c;
            val right = d;
            if (left > right) { c = right; d = left; }
            Clock.advanceAll();
            val middle = b;
            val next = c;
            if (middle > next) { b = next; c = middle; }
            Clock.advanceAll();
        }
    }
    val first = a;
    val second = b;
    val third = c;
    val fourth = d;
    Console.OUT.println(first);
    Console.OUT.println(second);
    Console.OUT.println(third);
    Console.OUT.println(fourth);
}
