// Refused: the second turn of the loop would drop a clock that is dropped already. The walk in the answer goes round the loop once.
// One turn is refused too, since the verifier doesn't count turns.
def main() {
    val c = Clock.make();
    for (i in 1..2) {
        Clock.advanceAll();
        Console.OUT.println(i);
        c.drop();
    }
}
