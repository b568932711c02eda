def main() {
    val who = 1;
    async {
        val who = 2;
        Console.OUT.println(who);
    }
}
