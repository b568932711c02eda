// A clocked finish has a clock without a name: main makes it at the beginning, and drops it at the end. A clocked async starts an activity on it.
// Main (1) and the activity (2) wait for each other, and main prints 3 when both are done. The chart is the same in each order.
def main() {
    clocked finish {
        clocked async {
            Clock.advanceAll();
            Console.OUT.println(2);
        }
        Clock.advanceAll();
        Console.OUT.println(1);
    }
    Console.OUT.println(3);
}
