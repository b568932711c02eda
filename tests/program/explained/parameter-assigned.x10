def work(n: Long) {
    n = n + 1;
}

def main() {
    work(1);
}
