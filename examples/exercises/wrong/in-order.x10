// A try at `in-order`: the activity is started before main prints.
def main() {
    async Console.OUT.println(1);
    Console.OUT.println(2);
}
