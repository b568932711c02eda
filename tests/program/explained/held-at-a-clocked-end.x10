def main() {
    clocked finish {
        val c = Clock.make();
        Clock.advanceAll();
    }
}
