def main() {
    for (i in 1..100000) async { }
}
