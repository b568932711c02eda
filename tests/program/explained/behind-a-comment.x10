def main() {
    val n = 1 // what to do
    Console.OUT.println(n);
}
