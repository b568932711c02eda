def main(n: Long) {
    val c = Clock.make();
    for (i in 1..Math.min(n, 3)) {
        async clocked(c) {
            Clock.advanceAll();
            Console.OUT.println(i);
        }
    }
    Clock.advanceAll();
}
