// A try at `table`: the loop counts the three numbers of a row from 0.
def row(n: Long) {
    for (i in 0..3) Console.OUT.println(i * n);
}

def main() {
    row(1);
    row(2);
}
