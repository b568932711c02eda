#define NUMBERS 8
#define CLOCKS 1
#include "clocks.h"
short a = 1, b, c, d;

/* `val left = a; val right = c; b = left + right;` and the like, four rounds in step */
#define ROUNDS(who, first, second, own) \
    byte now_in, round = 1; short x, y; \
    do \
    :: round <= 4 -> x = first; y = second; own = x + y; PRINT(1000 * who + 100 * round + x + y); ADVANCE(0); round++ \
    :: else -> break \
    od; \
    END_ON(0)

proctype low() { ROUNDS(2, a, c, b) }
proctype high() { ROUNDS(3, b, d, c) }

/* main starts both on the clock, which is the finish's, and leaves it; the watch stands for its wait at the end */
init { d_step { registered[0] = 3; left = 3 } run low(); run high(); END_ON(0) }
WATCH
