// Refused: a method drops the clock that it is lent. Its caller would go on with a clock that it isn't registered on any more.
// An activity may drop what is in its clocked list, since it is registered itself.
def last(c: Clock) {
    Console.OUT.println(1);
    c.drop();
}

def main() {
    val c = Clock.make();
    last(c);
    Clock.advanceAll();
}
