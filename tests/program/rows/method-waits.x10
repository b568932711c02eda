def step(c: Clock) {
    Clock.advanceAll();
}

def main() {
    val a = Clock.make();
    val b = Clock.make();
    b.resume();
    step(a);
    b.resume();
}
