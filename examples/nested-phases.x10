// Each day is a clocked finish, which has a clock for its hours: a new one for each day.
// Activities 1 and 2 print 100 * day + 10 * hour + who; main prints 1000 * day when all hours of the day are over.
def main() {
    for (day in 1..2) {
        clocked finish for (who in 1..2) clocked async for (hour in 0..1) {
            Console.OUT.println(100 * day + 10 * hour + who);
            Clock.advanceAll();
        }
        Console.OUT.println(1000 * day);
    }
}
