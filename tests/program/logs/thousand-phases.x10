def main() {
    val c = Clock.make();
    async clocked(c) for (phase in 1..1000) Clock.advanceAll();
    for (phase in 1..1000) Clock.advanceAll();
}
