/* The exported calls over one set of buffers, and what each takes of a painted stack. */
#ifndef CALLS_H
#define CALLS_H

#include "lingbarrow.h"
#include <stdbool.h>

enum { POWER_ON, IN_RANGE, FRAME, LOST, ADD_PORT, REMOVE_PORT, GIVE_KEY, STRETCH, STRETCHES, WHY_DARK, WRITE_HLEND, WRITE_ALLOCATION, WRITE_XGEM_FRAME, CALLS };

enum { TARGET = 16400 };

/* All that a call can write to, in one piece, so that it can be kept, put back and compared. */
struct lent {
    uint8_t state[LINGBARROW_STATE_BYTES];
    uint8_t memory[LINGBARROW_MEMORY_BYTES];
    uint16_t plan[LINGBARROW_PLAN_NUMBERS];
    uint8_t replies[LINGBARROW_REPLY_BYTES];
    uint8_t deliveries[LINGBARROW_DELIVERY_BYTES(LINGBARROW_FRAME_MOST)];
    size_t counts[LINGBARROW_COUNTS];
    size_t place[LINGBARROW_PLACE];
    size_t places[LINGBARROW_PLACES(LINGBARROW_FRAME_MOST)];
    size_t stretch_counts[LINGBARROW_STRETCH_COUNTS];
    uint8_t names[LINGBARROW_NAMES];
    size_t name_counts[LINGBARROW_NAME_COUNTS];
    uint8_t target[TARGET];
};

extern struct lent lent;

/* How long they are said to be, and those that are only read. */
struct lengths {
    size_t state, memory, plan, replies, deliveries, counts, place, places, stretch_counts, names, name_counts, target, serial, registration, key, sdu;
};

extern const struct lengths whole;
extern struct lengths lengths;

/* What the calls are given beside buffers. */
extern struct given {
    uint16_t port;
    size_t number;
    uint32_t bwmap, ploam, alloc, dbru, ploamu, start, grant, fwi, profile, key_index, xgem_port, options, last;
} given;

/* The station that scenarios begin with, in front of their names, and whether each scenario is to be printed. */
extern const char *where;
extern bool each;

/* The call is made, measured, and answered as wanted. Without a name it is only made: it is on the way to a scenario. */
void call(unsigned which, const char *name, unsigned wanted);

/* Whether the last call left all that was lent as it was. */
bool unchanged(void);

/* What does not hold ends the test: what was measured would be something else than its name says. */
void claim(bool holds, const char *what);

/* A line for each call. Whether each is as the header says. */
bool reported(void);

#endif
