// Two are on the clock, main and 1; 2 and 3 are beside it.
def main() {
    clocked finish {
        async Console.OUT.println(2);
        clocked async {
            Clock.advanceAll();
            Console.OUT.println(1);
        }
        for (who in 3..3) if (who == 3) { async Console.OUT.println(who); }
    }
}
