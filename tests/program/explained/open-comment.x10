def main() {
    /* never closed
}
