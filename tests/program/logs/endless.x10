// Runs for minutes.
def main() {
    for (a in 1..3) async {
        var s = 0;
        for (i in 1..150000000) s = s + i;
    }
}
