// An activity comes to a clock behind nearly a million steps of its own: the numbers of steps get seven digits.
def main() {
    clocked finish {
        clocked async {
            Clock.advanceAll();
            Console.OUT.println(2);
            Clock.advanceAll();
        }
        for (i in 1..999993) ;
        Clock.advanceAll();
        Console.OUT.println(1);
        Clock.advanceAll();
    }
}
