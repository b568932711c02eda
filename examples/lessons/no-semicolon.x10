// As first.x10, but a `;` is missing.
def sum(n: Long) {
    var s = 0;
    for (i in 1..4) {
        s = s + i * n;
    }
    Console.OUT.println(s);
}

def main() {
    val ten = 10;
    sum(1)
    sum(ten);
}
