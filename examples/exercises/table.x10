// A method prints n, 2 * n and 3 * n; main calls it for 1 and for 2.
def row(n: Long) {
    for (i in 1..3) Console.OUT.println(i * n);
}

def main() {
    row(1);
    row(2);
}
