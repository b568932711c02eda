// One activity beside main, and nothing that keeps either waiting: who prints first is a matter of who steps.
// Main prints 1 and 2, the activity that it starts prints 11 and 12.
def main() {
    async {
        Console.OUT.println(11);
        Console.OUT.println(12);
    }
    Console.OUT.println(1);
    Console.OUT.println(2);
}
