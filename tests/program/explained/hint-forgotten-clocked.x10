// `clocked` is forgotten: nobody is on the clock but main.
def main() {
    clocked finish {
        for (who in 1..2) async {
            Console.OUT.println(who);
            Clock.advanceAll();
            Console.OUT.println(10 + who);
        }
    }
}
