// A try at `count`: each activity reads the sum, adds its number, and writes it back.
shared sum = 0;

def main() {
    finish {
        for (who in 1..4) async {
            val seen = sum;
            sum = seen + who;
        }
    }
    val all = sum;
    Console.OUT.println(all);
}
