#define NUMBERS 13
#define CLOCKS 1
#include "clocks.h"

proctype joiner(byte who; byte first) {
    byte now_in, k;
    for (k : first .. 3) { PRINT(10 * k + who); ADVANCE(0) }
    END_ON(0)
}

init {
    byte now_in;
    d_step { registered[0] = 1 }
    d_step { registered[0]++; left++ } run joiner(1, 0);
    PRINT(0); ADVANCE(0);
    d_step { registered[0]++; left++ } run joiner(2, 1);
    PRINT(10); ADVANCE(0);
    d_step { registered[0]++; left++ } run joiner(3, 2);
    PRINT(20); ADVANCE(0);
    PRINT(30);
    END_ON(0)
}
WATCH
