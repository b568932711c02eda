// A finish waits for all activities that were started in it, also for those that they started: 1 comes before 3, and 2 too.
// Without the finish, main could print its 3 first.
def main() {
    finish {
        async {
            async Console.OUT.println(2);
            Console.OUT.println(1);
        }
    }
    Console.OUT.println(3);
}
