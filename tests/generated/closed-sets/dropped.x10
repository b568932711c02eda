// The second activity drops the clock before it advances, and so comes to its write without the first.
shared s = 0;
shared t = 0;
def main() {
    finish {
        val k = Clock.make();
        async clocked(k) { s = 1; Clock.advanceAll(); }
        async clocked(k) { t = 1; k.drop(); Clock.advanceAll(); s = 5; }
        k.drop();
    }
    var z = 0; z = s; Console.OUT.println(z);
}
