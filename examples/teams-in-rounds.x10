// Two teams of two. Within a round each team goes through two phases on a clock of its own, and waits for no other team; the outer clock is that
// of the rounds, on which are those who lead a team. They print 100 * round + 10 * phase + who, 1 and 2 in one team, 3 and 4 in the other.
// The hundreds never fall; the tens may, but not within a team.
def main() {
    clocked finish for (team in 0..1) clocked async {
        for (round in 1..2) {
            clocked finish for (member in 1..2) clocked async {
                for (phase in 0..1) {
                    Console.OUT.println(100 * round + 10 * phase + 2 * team + member);
                    Clock.advanceAll();
                }
            }
            Clock.advanceAll();
        }
    }
}
