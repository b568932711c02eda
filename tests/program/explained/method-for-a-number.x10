def square(n: Long) {
    Console.OUT.println(n * n);
}

def main() {
    val s = square;
    s(3);
}
