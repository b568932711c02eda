// Main and the activity that it starts add up the same numbers, each on its own, and print the sum: the same is printed whoever comes first.
def main() {
    finish {
        async {
            var s = 0;
            for (i in 1..9999) s = s + i;
            Console.OUT.println(s);
        }
        var t = 0;
        for (i in 1..9999) t = t + i;
        Console.OUT.println(t);
    }
}
