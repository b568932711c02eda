def main() {
    val c = Clock.make();
    val n = 1;
    if (n == 1) c.drop(); else Clock.advanceAll();
    c.resume();
}
