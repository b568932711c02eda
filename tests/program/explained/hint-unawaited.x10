// Main reads what its activities write, and waits for none of them: an advance waits for those on the clock alone.
shared total = 0;
shared ready = 0;
shared done = 0;

def main() {
    for (who in 1..3) {
        async atomic total = total + who;
    }
    val sum = total;
    Console.OUT.println(sum);
    clocked finish {
        async { ready = 1; }
        clocked async Clock.advanceAll();
        Clock.advanceAll();
        for (i in 1..3) {
            val r = ready;
            if (r == 1) Console.OUT.println(i);
        }
    }
    var last = 0;
    if (sum == 6) {
        async finish async done = 1;
        last = done;
        Console.OUT.println(last);
    }
}
