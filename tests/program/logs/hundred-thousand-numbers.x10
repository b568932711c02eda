def main() {
    for (i in 1..100001) Console.OUT.println(i);
}
