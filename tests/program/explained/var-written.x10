def main() {
    var sum = 0;
    finish async sum = 1;
    Console.OUT.println(sum);
}
