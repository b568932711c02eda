// Refused as a text: the body of an async doesn't see a clock that isn't in its clocked list, though it knows the name.
// With `clocked(c)` behind the async it may.
def main() {
    val c = Clock.make();
    async {
        Console.OUT.println(1);
        c.resume();
    }
    Clock.advanceAll();
}
