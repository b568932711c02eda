// Loops in loops, without activities: the products up to 3 times 3 below the diagonal, each as 100 * i + 10 * j + product.
// The verifier tells beforehand how many steps a run takes at most; branches that aren't taken make it fewer.
def main() {
    for (i in 1..3) for (j in 1..3) {
        if (j <= i) Console.OUT.println(100 * i + 10 * j + i * j);
    }
}
