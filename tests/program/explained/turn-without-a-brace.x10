def main() {
    val c = Clock.make();
    for (i in 1..2)
        if (i == 1)
            c.drop();
        else
            Clock.advanceAll();
}
