// Three activities whose loops are longer than what a worker computes at once.
def main() {
    for (a in 1..3) async {
        var s = 0;
        for (i in 1..40000) s = s + i;
        Console.OUT.println(s);
    }
}
