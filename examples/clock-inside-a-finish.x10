// A clock that is made inside a finish: main drops it before the end, so that it waits there for the activities and for no clock.
// Activities 1 and 2 print 10 * phase + who; main prints 99 when both have ended.
def main() {
    finish {
        val c = Clock.make();
        for (who in 1..2) async clocked(c) {
            Console.OUT.println(who);
            Clock.advanceAll();
            Console.OUT.println(10 + who);
        }
        c.drop();
    }
    Console.OUT.println(99);
}
