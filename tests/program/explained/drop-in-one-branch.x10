def main() {
    finish {
        val c = Clock.make();
        for (who in 1..2) async clocked (c) {
            if (who == 1) c.drop();
            Clock.advanceAll();
            c.resume();
        }
        c.drop();
    }
}
