// Who of the four has ended does not count, and no world is kept where there is no choice: so 69 worlds are enough.
shared s = 0;
def main() {
    finish for (who in 1..4) async {
        val x = s;
        s = x + 1;
    }
    val t = s;
    Console.OUT.println(t);
}
