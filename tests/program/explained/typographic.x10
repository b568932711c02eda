def main() {
    Console.OUT.println(“hi”);
}
