def main() {
    val n = 1;
    n /* is */ // now
        = 2;
}
