// Each inner node waits for its two leaves in a finish of its own, and main for both nodes.
// A leaf prints 10 * node + leaf, a node 100 * node behind its leaves, main 1000 at the end.
def node(n: Long) {
    finish {
        for (leaf in 1..2) async Console.OUT.println(10 * n + leaf);
    }
    Console.OUT.println(100 * n);
}

def main() {
    finish {
        for (n in 1..2) async node(n);
    }
    Console.OUT.println(1000);
}
