// How far a loop goes is taken once, before its first turn: in the first one m falls, and there are as many turns as it stood for at first.
// Who wants to look at m in each turn writes an `if`: the second loop prints 100 + i, and no further than the middle.
def main(n: Long) {
    var m = n;
    for (i in 1..Math.min(m, 10)) {
        m = m - 1;
        Console.OUT.println(i);
    }
    m = n;
    for (i in 1..Math.min(m, 10)) if (i <= m) {
        m = m - 1;
        Console.OUT.println(100 + i);
    }
}
