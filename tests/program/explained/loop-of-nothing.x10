def main() {
    val c = Clock.make();
    for (i in 1..3)
        ;
    c.drop();
    c.resume();
}
