// Two activities read a shared number, add 1, and write it back. Main prints it when both have ended.
shared count = 0;

def main() {
    finish {
        for (who in 1..2) async {
            val seen = count;
            count = seen + 1;
        }
    }
    val left = count;
    Console.OUT.println(left);
}
