shared total = 0;

def main() {
    finish for (i in 1..3) async {
        total = total - 2 * i;
    }
}
