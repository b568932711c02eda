// Each prints 10 * phase + who, and nobody begins phase 1 before all have printed for phase 0.
def main() {
    clocked finish for (who in 1..3) clocked async {
        Console.OUT.println(who);
        Clock.advanceAll();
        Console.OUT.println(10 + who);
    }
}
