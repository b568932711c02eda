// Main prints 1 before it starts anybody. Nothing orders the two that it starts.
def main() {
    Console.OUT.println(1);
    for (who in 2..3) async Console.OUT.println(who);
}
