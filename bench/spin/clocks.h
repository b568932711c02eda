/* What the models share: numbers that are printed, kept in order, and clocks. A step that others see in X10 is one step here.
   NUMBERS is how many numbers a run prints, CLOCKS how many clocks it has. */

short printed[NUMBERS];
byte count;
byte registered[CLOCKS], arrived[CLOCKS], phase[CLOCKS];
/* who has not ended: main at first */
byte left = 1;

/* a number is printed */
#define PRINT(x) d_step { printed[count] = x; count++ }

/* clock c goes on, if all who are registered on it have come */
#define GOES_ON(c) (registered[c] > 0 && arrived[c] == registered[c])
#define SETTLE(c) phase[c] = (GOES_ON(c) -> 1 - phase[c] : phase[c]); arrived[c] = (GOES_ON(c) -> 0 : arrived[c])

/* Clock.advanceAll() of one who is on clock c alone: it comes, and goes on when the clock has */
#define ADVANCE(c) d_step { now_in = phase[c]; arrived[c]++; SETTLE(c) } phase[c] != now_in

/* c.drop() */
#define DROP(c) d_step { registered[c]--; SETTLE(c) }

/* the end of an activity that is on clock c, and of one that is on none */
#define END_ON(c) atomic { registered[c]--; SETTLE(c); left-- }
#define END atomic { left-- }

/* when all have ended, what was printed is told: each list is, and some of them again */
#define WATCH active proctype watch() { int k; left == 0 -> c_code { int k; printf("outcome"); for (k = 0; k < now.count; k++) printf(" %d", now.printed[k]); printf("\n"); } }
