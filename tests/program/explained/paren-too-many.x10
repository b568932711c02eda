def main() {
    val a = 1;
    Console.OUT.println(a));
}
