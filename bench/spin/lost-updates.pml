#define NUMBERS 4
#define CLOCKS 1
#include "clocks.h"
short total;

proctype worker(byte who) {
    short seen;
    seen = total;
    PRINT(10 * seen + who);
    total = seen + 1;
    END
}

init {
    d_step { left++ } run worker(1);
    d_step { left++ } run worker(2);
    d_step { left++ } run worker(3);
    left == 1;
    PRINT(total);
    END
}
WATCH
