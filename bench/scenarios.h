/* What is measured: tables, and the requests made of them. */
#ifndef SCENARIOS_H
#define SCENARIOS_H

#include "cavernlull.h"

enum { SLOT = 4288, SLOTS = 15, TABLE = SLOT * SLOTS, REPLY = 4279, MOST_STEPS = 4, MOST_FRAME = 4300 };

struct step {
    uint8_t frame[MOST_FRAME];
    size_t length;
};

/* A table, the tally kept beside it, and requests that leave both, taken together, as they were. `start` is that of each
 * call, and `number` what it gives. */
struct scenario {
    const char *name;
    uint8_t table[TABLE];
    struct cavernlull_tally tally;
    struct step steps[MOST_STEPS];
    size_t count, start;
    uint16_t number;
};

/* Makes the scenario of this index; gives 0 where there is none. */
int make_scenario(struct scenario *s, unsigned index);

#endif
