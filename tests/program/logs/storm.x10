// Eight groups of six activities, each group on a clock of its own and all on one: each activity goes through 25 phases, which it counts.
shared phases = 0;

def main() {
    finish {
        val all = Clock.make();
        for (group in 1..8) async clocked (all) {
            val own = Clock.make();
            for (member in 1..6) async clocked (all, own) for (phase in 1..25) {
                atomic phases = phases + 1;
                Clock.advanceAll();
            }
        }
        all.drop();
    }
    val counted = phases;
    Console.OUT.println(counted);
}
