#define NUMBERS 1
#define CLOCKS 1
#include "clocks.h"
short total;

/* reads, adds one and writes, so often */
proctype worker(byte turns) {
    byte k;
    short seen;
    for (k : 1 .. turns) { seen = total; seen = seen + 1; total = seen }
    END
}

init {
    d_step { left++ } run worker(2);
    d_step { left++ } run worker(2);
    d_step { left++ } run worker(2);
    d_step { left++ } run worker(1);
    left == 1;
    PRINT(total);
    END
}
WATCH
