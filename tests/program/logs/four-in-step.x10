// Nobody reads again what they read before they wrote: so 275 worlds are enough, where 371 are told apart by it.
shared s = 0;
def main() {
    clocked finish for (who in 1..4) clocked async {
        val x = s;
        s = x + 1;
        Clock.advanceAll();
    }
    val t = s;
    Console.OUT.println(t);
}
