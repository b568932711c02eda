def main() {
    clocked finish finish clocked async { }
}
