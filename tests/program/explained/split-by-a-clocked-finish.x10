def main() {
    clocked finish {
        for (i in 1..2) clocked async {
            Clock.advanceAll();
        }
        finish clocked async { }
    }
}
