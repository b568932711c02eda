def main() {
    for (i in 1..2000) async {
        var s = i;
        for (j in 1..10) s = s + 1;
    }
}
