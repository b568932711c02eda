def main() {
    clocked async {
        Clock.advanceAll();
        Console.OUT.println(2);
    }
    Clock.advanceAll();
    Console.OUT.println(1);
}
