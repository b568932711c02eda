// A try at `head-start`: main starts both, which takes them some time, and prints 1 meanwhile.
def main() {
    for (who in 2..3) async Console.OUT.println(who);
    Console.OUT.println(1);
}
