def main() {
    val c = Clock.make();
    for (i in 1..2)
        Clock.advanceAll();
    finish
        c.drop();
    clocked finish
        Clock.advanceAll();
    c.resume();
}
