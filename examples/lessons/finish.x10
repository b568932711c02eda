// A finish waits for the activities that were started in it, and for those that they started.
def main() {
    finish {
        async {
            async Console.OUT.println(2);
            Console.OUT.println(1);
        }
    }
    Console.OUT.println(3);
}
