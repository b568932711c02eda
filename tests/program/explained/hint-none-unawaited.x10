// What is read is written by nobody who may go on: a finish has waited for him, or he comes later, or he wrote another number. Nor is it told
// what an activity on a clock writes. (Of c in the last finish another hint is: two activities meet there that the schedule alone orders.)
shared a = 0;
shared b = 0;
shared c = 0;

def main(n: Long) {
    val first = a;
    finish async a = first + 1;
    val second = a;
    if (second == 1) { async b = 1; } else { val third = b; Console.OUT.println(third); }
    finish { async { var own = 0; own = 1; a = own; } }
    var own = 2;
    own = a;
    clocked finish {
        clocked async { c = 1; Clock.advanceAll(); }
        Clock.advanceAll();
        val fourth = c;
        Console.OUT.println(fourth + own);
    }
    finish {
        async c = n;
        async { val fifth = c; Console.OUT.println(fifth); }
    }
    async { var inner = 1; inner = inner + 1; Console.OUT.println(inner); }
    val inner = 2;
    val copy = inner;
    Console.OUT.println(copy);
}
