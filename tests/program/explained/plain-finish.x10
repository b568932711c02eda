def main() {
    finish {
        for (who in 1..2) clocked async {
            Console.OUT.println(who);
            Clock.advanceAll();
            Console.OUT.println(10 + who);
        }
    }
}
