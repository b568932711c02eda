// Main and the activity wait for nobody; what the method waits for depends on who calls it.
def wait() {
    Clock.advanceAll();
}

def main() {
    Clock.advanceAll();
    async {
        wait();
        Clock.advanceAll();
        async {
            val c = Clock.make();
            async clocked (c) Clock.advanceAll();
        }
    }
}
