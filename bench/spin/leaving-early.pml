#define NUMBERS 11
#define CLOCKS 1
#include "clocks.h"

proctype leaver() {
    byte now_in;
    PRINT(1); ADVANCE(0); PRINT(11); DROP(0); PRINT(91);
    END
}

proctype stayer(byte who) {
    byte now_in, k;
    for (k : 0 .. 3) { PRINT(10 * k + who); ADVANCE(0) }
    END_ON(0)
}

init {
    d_step { registered[0] = 1 }
    d_step { registered[0]++; left++ } run leaver();
    d_step { registered[0]++; left++ } run stayer(2);
    d_step { registered[0]++; left++ } run stayer(3);
    END_ON(0)
}
WATCH
