def main() {
    val n: Long = Clock.make();
    Console.OUT.println(n);
}
