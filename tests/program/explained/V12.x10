def main() {
    finish {
        val c = Clock.make();
        async clocked (c) Clock.advanceAll();
    }
    Console.OUT.println(1);
}
