shared total = 0;

def main() {
    total = 2 * total;
}
