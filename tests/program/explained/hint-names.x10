shared never = 0;
shared written = 0;
shared added = 0;
shared constant = 5;
shared forgotten = 0;

def uncalled(n: Long, c: Clock) {
    val m = n;
}

def called(n: Long, m: Long) {
    Console.OUT.println(m);
}

def main(n: Long) {
    val start = constant;
    var last = forgotten;
    last = last + start;
    var sum = 0;
    sum = last;
    written = last;
    atomic added = added + last;
    if (last == 5) {
        val x = 1;
        Console.OUT.println(x);
    } else {
        val x = 2;
    }
    for (i in 1..2) val y = i;
    called(1, 2);
}
