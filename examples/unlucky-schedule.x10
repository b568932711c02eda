// Activity 1 adds 1 to a shared number, by reading and writing; activity 2 counts to 3 first, and then does the same. In each of the three
// orders one is done before the other begins, and 2 is printed. The log beside it has a schedule in which an update is lost.
shared count = 0;

def main() {
    finish {
        async {
            val seen = count;
            count = seen + 1;
        }
        async {
            for (i in 1..3) { }
            val seen = count;
            count = seen + 1;
        }
    }
    val left = count;
    Console.OUT.println(left);
}
