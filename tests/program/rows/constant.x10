def main() { val x = 1; async { x = 2; y = 3; } }
