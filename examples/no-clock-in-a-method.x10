// Refused as a text: a method doesn't know from which clocked finish it is called, and so has no clock to start anybody on.
// Start the activity in the clocked finish, and let it call the method: with `clocked async greet(who);`, and without the `clocked async` here.
def greet(who: Long) {
    clocked async {
        Console.OUT.println(who);
        Clock.advanceAll();
        Console.OUT.println(10 + who);
    }
}

def main() {
    clocked finish for (who in 1..2) greet(who);
}
