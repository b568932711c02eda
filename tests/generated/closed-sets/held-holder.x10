// Who holds the clock up is held up itself, by one outside of the set.
shared s = 0;
shared t = 0;
def main() {
    finish {
        val k = Clock.make();
        val l = Clock.make();
        async { s = 1; }
        async clocked(l) { t = 1; Clock.advanceAll(); }
        async clocked(k, l) { k.resume(); Clock.advanceAll(); }
        async clocked(k) { Clock.advanceAll(); Clock.advanceAll(); s = 5; }
        k.drop();
        l.drop();
    }
    var z = 0; z = s; Console.OUT.println(z);
}
