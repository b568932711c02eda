def start(w: Long) {
    clocked async {
        Console.OUT.println(w);
        Clock.advanceAll();
        Console.OUT.println(10 + w);
    }
}

def main() {
    clocked finish for (w in 1..3) start(w);
}
