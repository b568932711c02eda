// Main (1) and the activity that it starts (2) wait for each other at the clock.
// Each prints 10 * phase + who: whoever goes first, both have printed for phase 0 before anybody prints for phase 1.
def main() {
    clocked finish {
        clocked async {
            Console.OUT.println(2);
            Clock.advanceAll();
            Console.OUT.println(12);
        }
        Console.OUT.println(1);
        Clock.advanceAll();
        Console.OUT.println(11);
    }
}
