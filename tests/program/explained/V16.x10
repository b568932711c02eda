def main() {
    for (i in 1..100001) {
        val c = Clock.make();
        c.drop();
    }
}
