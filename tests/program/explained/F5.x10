def main() {
    for (i in 1..3) {
        val square = i * i;
    }
    Console.OUT.println(square);
}
