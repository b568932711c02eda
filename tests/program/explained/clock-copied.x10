def main() {
    val c = Clock.make();
    val d: Clock = c;
    d.drop();
}
