// A token goes round a ring of n, six at most. Each waits as many phases as there are before it, then takes the token as it was left, writes its
// digit behind it, and ends; and the next one's phase has come. The first waits for nobody: its loop has no turn.
shared token = 0;

def main(n: Long) {
    val step = Clock.make();
    for (who in 1..Math.min(n, 6)) async clocked(step) {
        for (phase in 1..Math.min(who - 1, 5)) Clock.advanceAll();
        val got = token;
        token = 10 * got + who;
        Console.OUT.println(10 * got + who);
    }
}
