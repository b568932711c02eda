shared t = 0;

def work(m: Long) {
    m = 2;
}

def main() {
    var n = 1;
    async Console.OUT.println(n);
    Console.OUT.println(t);
    work(n);
}
