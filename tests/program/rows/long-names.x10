def main() {
    val the_clock_that_main_makes_and_that_the_activity_is_registered = Clock.make();
    val a_number_of_as_many_letters_as_a_listing_shows_of_a_long_one = 7;
    async clocked(the_clock_that_main_makes_and_that_the_activity_is_registered) {
        Console.OUT.println(a_number_of_as_many_letters_as_a_listing_shows_of_a_long_one);
    }
    Clock.advanceAll(); /* ‮ turns ⁦ the order of letters */
}
