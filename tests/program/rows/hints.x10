shared never = 0;

def uncalled() { }

def main() {
    val x = 1;
    clocked finish { async Clock.advanceAll(); }
    for (i in 2..1) ;
    Console.OUT.println(7);
}
