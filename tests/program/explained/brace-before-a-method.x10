def main() {
    finish {
        for (who in 1..2) async {
            work(who);
    }
    Console.OUT.println(3);
}

def work(n: Long) {
    Console.OUT.println(n);
}
