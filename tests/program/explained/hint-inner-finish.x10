// The activity is on the clock of the inner finish, and none on that of the outer one.
def main() {
    clocked finish {
        clocked finish {
            clocked async Clock.advanceAll();
            Clock.advanceAll();
        }
        Clock.advanceAll();
    }
}
