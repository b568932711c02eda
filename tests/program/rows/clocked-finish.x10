def main() {
    clocked finish {
        clocked async {
            Clock.advanceAll();
            Console.OUT.println(2);
        }
        Clock.advanceAll();
        Console.OUT.println(1);
    }
    Console.OUT.println(3);
}
