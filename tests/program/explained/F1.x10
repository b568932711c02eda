def main() {
    Console.OUT.println(7 % 2);
}
