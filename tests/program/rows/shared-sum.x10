shared s = 0;

def main() {
    finish {
        for (i in 1..3) async {
            atomic s = s + i;
        }
    }
    val r = s;
    Console.OUT.println(r);
}
