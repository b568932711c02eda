// Two activities each read a number, and write what they read and 1; in the second finish three times.
shared n = 0;
shared m = 0;

def main() {
    finish for (who in 1..2) async {
        val t = n;
        n = t + 1;
    }
    finish {
        for (who in 1..2) {
            async for (i in 1..3) {
                var t = m;
                t = t + who;
                Console.OUT.println(t);
                m = t;
            }
        }
    }
    val all = n;
    val more = m;
    Console.OUT.println(all + more);
}
