#define NUMBERS 10
#define CLOCKS 1
#include "clocks.h"

proctype member(byte who) {
    byte now_in, k;
    for (k : 0 .. 2) { PRINT(10 * k + who); ADVANCE(0) }
    END_ON(0)
}

/* main starts three on the finish's clock, leaves it, and prints when they have ended */
init {
    d_step { registered[0] = 1 }
    d_step { registered[0]++; left++ } run member(1);
    d_step { registered[0]++; left++ } run member(2);
    d_step { registered[0]++; left++ } run member(3);
    DROP(0);
    left == 1;
    PRINT(99);
    END
}
WATCH
