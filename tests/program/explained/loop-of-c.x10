def main() {
    for (int i = 0; i < 3; i++) Console.OUT.println(i);
}
