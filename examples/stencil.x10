// Four cells in a row; in each round an inner cell becomes the sum of its neighbours as they were in the round before.
// So in each round both activities read, wait, write, and wait. They print 1000 * cell + 100 * round + the new number, the same in each order.
shared a = 1;
shared b = 0;
shared c = 0;
shared d = 0;

def main() {
    clocked finish {
        clocked async for (round in 1..4) {
            val left = a;
            val right = c;
            Clock.advanceAll();
            b = left + right;
            Console.OUT.println(2000 + 100 * round + left + right);
            Clock.advanceAll();
        }
        clocked async for (round in 1..4) {
            val left = b;
            val right = d;
            Clock.advanceAll();
            c = left + right;
            Console.OUT.println(3000 + 100 * round + left + right);
            Clock.advanceAll();
        }
    }
}
