def main() {
    Console.OUT.println(9223372036854775808);
}
