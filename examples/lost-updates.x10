// Three activities read a shared number, and each writes what it read plus 1, all in one phase: updates can be lost.
// Activity 1 to 3 prints 10 * what it read + who. In turns (round) all read 0, and 1 is left; else 3.
shared count = 0;

def main() {
    finish {
        for (who in 1..3) async {
            val seen = count;
            Console.OUT.println(10 * seen + who);
            count = seen + 1;
        }
    }
    val left = count;
    Console.OUT.println(left);
}
