// None is beside the clock of the innermost finish, in which it is started by main itself.
def main() {
    async Console.OUT.println(1);
    clocked finish {
        clocked async {
            async Console.OUT.println(2);
            Clock.advanceAll();
        }
        finish async Console.OUT.println(3);
        Clock.advanceAll();
    }
    async Console.OUT.println(4);
}
