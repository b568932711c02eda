def work() { }

def main() {
    async Work();
}
