// Who is on the clock of a clocked finish may start others on it: 1 starts 2, and this one 3, each in the phase in which it is itself.
// They print 10 * phase + who, and main 99 when all are done. The chart tells how they become more, and fewer.
def main() {
    clocked finish clocked async {
        Console.OUT.println(1);
        Clock.advanceAll();
        clocked async {
            Console.OUT.println(12);
            Clock.advanceAll();
            clocked async {
                Console.OUT.println(23);
                Clock.advanceAll();
                Console.OUT.println(33);
            }
            Console.OUT.println(22);
            Clock.advanceAll();
        }
        Console.OUT.println(11);
        Clock.advanceAll();
    }
    Console.OUT.println(99);
}
