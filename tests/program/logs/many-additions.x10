// The number that main prints rests on 151 steps.
shared s = 0;
def main() {
    for (i in 1..150) atomic s = s + i;
    val r = s;
    Console.OUT.println(r);
}
