// 1 comes before 2: main waits in a finish for the activity that prints 1.
def main() {
    finish async Console.OUT.println(1);
    Console.OUT.println(2);
}
