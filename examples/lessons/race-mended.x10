// As race.x10, but each adds 1 in one step.
shared count = 0;

def main() {
    finish {
        for (who in 1..2) async atomic count = count + 1;
    }
    val left = count;
    Console.OUT.println(left);
}
