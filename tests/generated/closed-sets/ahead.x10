// One is ahead on the clock that another holds up: its advance passes at once.
shared s = 0;
shared t = 0;
def main() {
    finish {
        val k = Clock.make();
        async clocked(k) { Clock.advanceAll(); s = 1; Clock.advanceAll(); }
        async clocked(k) { k.resume(); t = 1; Clock.advanceAll(); s = 5; }
        k.drop();
    }
    var z = 0; z = s; Console.OUT.println(z);
}
