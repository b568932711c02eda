def work() { }

def main() {
    async { work() }
}
