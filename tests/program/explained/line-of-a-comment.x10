def main() {
    /* for a
    while */ val n 5;
}
