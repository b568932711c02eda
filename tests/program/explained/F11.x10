def show(who: Long, what: Long) {
    Console.OUT.println(10 * who + what);
}

def main() {
    show(1);
}
