shared sum = 0;

def main() {
    sum = sum + 1;
}
