def main() {
    var n = 1;
    n = n + 1;
    async Console.OUT.println(n);
}
