def main() {
    val c = Clock.make();
    for (phase in 1..5000) Clock.advanceAll();
}
