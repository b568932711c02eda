def main() {
    for (i in 1..60000) async ;
}
