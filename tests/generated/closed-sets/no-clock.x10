// One that is held up on a clock starts another on no clock, which writes at once.
shared s = 0;
shared t = 0;
def main() {
    finish {
        val k = Clock.make();
        async clocked(k) { s = 1; Clock.advanceAll(); }
        async clocked(k) { t = 1; async { Clock.advanceAll(); s = 5; } Clock.advanceAll(); }
        k.drop();
    }
    var z = 0; z = s; Console.OUT.println(z);
}
