def main() { val x = 007; }
