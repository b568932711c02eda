def main() {
    a = 1;
    b = a + 1;
    val n = a + b + c;
    async {
        d = e + n;
    }
    f(a);
    Console.OUT.println(g - h);
}
