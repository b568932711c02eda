def main() {
    Clock.advanceAll();
