def main() {
    val c = Clock.make();
    val n = 2 * c;
}
