def last(c: Clock) {
    Console.OUT.println(1);
    c.drop();
}

def main() {
    val c = Clock.make();
    last(c);
    Clock.advanceAll();
}
