// As ../two-in-step.x10, but the activity doesn't wait.
def main() {
    clocked finish {
        clocked async {
            Console.OUT.println(2);
            Console.OUT.println(12);
        }
        Console.OUT.println(1);
        Clock.advanceAll();
        Console.OUT.println(11);
    }
}
