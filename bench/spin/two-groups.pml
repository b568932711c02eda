#define NUMBERS 8
#define CLOCKS 2
#include "clocks.h"

proctype member(byte who; byte c) {
    byte now_in, k;
    for (k : 0 .. 1) { PRINT(10 * k + who); ADVANCE(c) }
    END_ON(c)
}

init {
    d_step { registered[0] = 1; registered[1] = 1 }
    d_step { registered[0]++; left++ } run member(1, 0);
    d_step { registered[0]++; left++ } run member(2, 0);
    d_step { registered[1]++; left++ } run member(3, 1);
    d_step { registered[1]++; left++ } run member(4, 1);
    d_step { registered[0]--; SETTLE(0); registered[1]--; SETTLE(1); left-- }
}
WATCH
