def main() {
    for (day in 1..2) {
        val c = Clock.make();
        async clocked (c) Clock.advanceAll();
        Clock.advanceAll();
    }
}
