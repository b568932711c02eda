def main(n: Long) {
    for (i in 3..3) Console.OUT.println(i);
    for (i in -1..Math.min(n, -1)) Console.OUT.println(i);
    for (i in 1..Math.min(0, 1)) Console.OUT.println(i);
}
