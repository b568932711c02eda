// One outcome is met after a few worlds, the other one after many: a search that leaves off between has the first alone.
shared n = 0;

def main() {
    async {
        val k = n;
        if (k == 0) for (i in 1..20) atomic n = n + 1;
        Console.OUT.println(k);
    }
    async n = 1;
}
