def main() {
    var n = 0;
    atomic n = n + 1;
    Console.OUT.println(n);
}
