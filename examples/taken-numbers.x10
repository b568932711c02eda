// The body of an async takes the numbers around it as they were when it was started: each prints its own turn of the loop.
// The var isn't taken; what it held goes along in a val.
def main() {
    var sum = 0;
    for (i in 1..3) {
        sum = sum + i;
        val now = sum;
        async Console.OUT.println(100 * i + now);
    }
    Console.OUT.println(sum);
}
