// Nobody else is there between reading and writing, or not surely; or what is written isn't made of what was read.
shared n = 0;

def main(k: Long) {
    for (who in 1..2) finish async { val t = n; n = t + 1; }
    finish for (who in 1..1) async { val t = n; n = t + 1; }
    finish for (who in 1..2) if (who == 1) { async { val t = n; n = t + 1; } }
    finish for (who in 1..2) async if (who == 1) { val t = n; n = t + 1; }
    finish for (who in 1..Math.min(k, 2)) async { val t = n; n = t + 1; }
    finish for (who in 1..2) async for (i in 1..Math.min(k - who, 1)) { val t = n; n = t + 1; }
    finish for (who in 1..2) async { val t = n; n = who; Console.OUT.println(t); }
    finish for (who in 1..2) async { val t = n; Console.OUT.println(t); atomic n = n + t; }
    finish for (who in 1..2) async { var own = 0; val t = own; own = t + 1; Console.OUT.println(own); }
    finish for (who in 1..2) { val t = n; n = t + 1; }
    clocked finish for (who in 1..2) {
        clocked async { val t = n; n = t + 1; Clock.advanceAll(); }
        Clock.advanceAll();
    }
}
