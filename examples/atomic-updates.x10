// The repair of lost-updates without a clock: nobody comes between the two halves of an atomic addition.
// The sum is 6 whoever goes first; each activity prints its number when it has added it.
shared count = 0;

def main() {
    finish {
        for (who in 1..3) async {
            atomic count = count + who;
            Console.OUT.println(who);
        }
    }
    val left = count;
    Console.OUT.println(left);
}
