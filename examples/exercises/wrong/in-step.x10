// A try at `in-step`: each prints its two numbers and waits for the others once.
def main() {
    clocked finish for (who in 1..3) clocked async {
        Console.OUT.println(who);
        Console.OUT.println(10 + who);
        Clock.advanceAll();
    }
}
