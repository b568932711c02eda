def both(a: Clock, b: Clock) {
    a.resume();
    Clock.advanceAll();
}

def main() {
    val c = Clock.make();
    both(c, c);
}
