def main() {
    var s = 0;
    for (i in 1..500000) s = s + i;
    Console.OUT.println(s);
}
