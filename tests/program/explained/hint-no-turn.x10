def main(n: Long) {
    for (i in 3..1) Console.OUT.println(i);
    for (i in 1..Math.min(n, 0)) Console.OUT.println(i);
}
