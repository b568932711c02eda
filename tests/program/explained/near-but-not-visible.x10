def main() {
    for (i in 1..3) { val total = i; }
    for (i in 1..3) Console.OUT.println(totl);
}
