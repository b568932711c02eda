// What was printed first is not read again: so 22 worlds are enough, where 56 are told apart by it.
shared first = 0;
shared s = 0;
def main() {
    finish for (who in 1..3) async {
        first = who;
    }
    val a = first;
    Console.OUT.println(a);
    finish for (who in 1..3) async {
        val x = s;
        s = x + 1;
    }
    val b = s;
    Console.OUT.println(b);
}
