def main() {
    val c = Clock.make();
    for (turn in 1..3) {
        Clock.advanceAll();
        c.drop();
    }
}
