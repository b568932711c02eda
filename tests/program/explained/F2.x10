def main() {
    val n = 1
    Console.OUT.println(n);
}
