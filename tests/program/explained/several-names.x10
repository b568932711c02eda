shared total = 0;

def add(c: Clock, n: Long) {
    total = total + m;
    c.drop();
}

def main() {
    val c = Clock.make();
    x = 1;
    val c = 2;
    async clocked (c, c) {
        add(c);
        c = 3;
    }
    async {
        c.drop();
    }
    add(1, total);
}
