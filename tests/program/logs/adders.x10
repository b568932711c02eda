// Eight activities reckon for a while in each of six phases, add what they have to a shared number, and meet; then each says that it is through.
shared s = 0;
def main() {
    val c = Clock.make();
    for (i in 1..8) async clocked(c) {
        var x = 0;
        for (p in 1..6) {
            for (k in 1..3000) x = x + k * i;
            atomic s = s + x;
            Clock.advanceAll();
            Console.OUT.println(i);
        }
    }
    for (p in 1..6) Clock.advanceAll();
    val r = s;
    Console.OUT.println(r);
}
