// Each activity that waits has been on a clock, if only behind that place, or in a block that has ended.
def main() {
    Clock.advanceAll();
    async {
        if (1 == 1) {
            val c = Clock.make();
            async clocked (c) Clock.advanceAll();
        }
        Clock.advanceAll();
    }
    clocked finish clocked async Clock.advanceAll();
}
