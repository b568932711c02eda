// A producer puts a number into the box in phases 0, 2, 4; a consumer takes it out in phases 1, 3, 5.
// The producer prints 100 + item, the consumer 200 + item: each item is taken once, before the next one is put.
shared box = 0;

def producer() {
    for (item in 1..3) {
        box = item;
        Console.OUT.println(100 + item);
        Clock.advanceAll();
        Clock.advanceAll();
    }
}

def consumer() {
    for (item in 1..3) {
        Clock.advanceAll();
        val got = box;
        Console.OUT.println(200 + got);
        Clock.advanceAll();
    }
}

def main() {
    val c = Clock.make();
    async clocked(c) producer();
    async clocked(c) consumer();
}
