def main() {
    for (i in 1..3):
        Console.OUT.println(i);
}
