// As finish.x10, but without the finish.
def main() {
    async {
        async Console.OUT.println(2);
        Console.OUT.println(1);
    }
    Console.OUT.println(3);
}
