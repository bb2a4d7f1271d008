#include "calls.h"
#include "headend.h"
#include "painted.h"
#include <stdio.h>
#include <stdlib.h>
#include <string.h>

/* So much more than was measured the header may say. */
enum { SLACK = 64 };

struct lent lent;
const struct lengths whole = {
    LINGBARROW_STATE_BYTES,
    LINGBARROW_MEMORY_BYTES,
    LINGBARROW_PLAN_NUMBERS,
    LINGBARROW_REPLY_BYTES,
    LINGBARROW_DELIVERY_BYTES(LINGBARROW_FRAME_MOST),
    LINGBARROW_COUNTS,
    LINGBARROW_PLACE,
    LINGBARROW_PLACES(LINGBARROW_FRAME_MOST),
    LINGBARROW_STRETCH_COUNTS,
    LINGBARROW_NAMES,
    LINGBARROW_NAME_COUNTS,
    TARGET,
    LINGBARROW_SERIAL_BYTES,
    LINGBARROW_REGISTRATION_BYTES,
    LINGBARROW_KEY_BYTES,
    0,
};
struct lengths lengths;
struct given given;
const char *where = "";
bool each;

static struct lent before, first;
static uint8_t answer;

/* The exported calls themselves: those with an identifier by number, the name in parentheses.
 * None of these has anything on the stack between its frame address and the call's arguments. */
static void power_on(void)
{
    called_from = __builtin_frame_address(0);
    answer = lingbarrow_power_on(lent.state, lengths.state, serial, lengths.serial, registration, lengths.registration);
}

static void in_range(void)
{
    called_from = __builtin_frame_address(0);
    answer = lingbarrow_in_range(lent.state, lengths.state);
}

static void arrive(void)
{
    called_from = __builtin_frame_address(0);
    answer = lingbarrow_frame(lent.state, lengths.state, lent.memory, lengths.memory, frame, frame_length, UINT32_MAX, lent.plan,
                              lengths.plan, lent.replies, lengths.replies, lent.deliveries, lengths.deliveries, lent.counts,
                              lengths.counts);
}

static void lose(void)
{
    called_from = __builtin_frame_address(0);
    answer = lingbarrow_lost(lent.state, lengths.state);
}

static void add_port(void)
{
    called_from = __builtin_frame_address(0);
    answer = (lingbarrow_add_port)(lent.state, lengths.state, given.port);
}

static void remove_port(void)
{
    called_from = __builtin_frame_address(0);
    answer = (lingbarrow_remove_port)(lent.state, lengths.state, given.port);
}

static void give_key(void)
{
    called_from = __builtin_frame_address(0);
    answer = lingbarrow_give_key(lent.state, lengths.state, key, lengths.key);
}

static void stretch(void)
{
    called_from = __builtin_frame_address(0);
    answer = lingbarrow_stretch(lent.state, lengths.state, frame, frame_length, given.number, lent.place, lengths.place);
}

static void stretches(void)
{
    called_from = __builtin_frame_address(0);
    answer = lingbarrow_stretches(lent.state, lengths.state, frame, frame_length, lent.places, lengths.places, lent.stretch_counts,
                                  lengths.stretch_counts);
}

static void why_dark(void)
{
    called_from = __builtin_frame_address(0);
    answer = lingbarrow_why_dark(lent.state, lengths.state, frame, frame_length, lent.names, lengths.names, lent.name_counts,
                                 lengths.name_counts);
}

static void write_hlend(void)
{
    called_from = __builtin_frame_address(0);
    answer = lingbarrow_write_hlend(given.bwmap, given.ploam, lent.target, lengths.target);
}

static void write_allocation(void)
{
    called_from = __builtin_frame_address(0);
    answer = (lingbarrow_write_allocation)(given.alloc, given.dbru, given.ploamu, given.start, given.grant, given.fwi, given.profile,
                                           lent.target, lengths.target);
}

static void write_xgem_frame(void)
{
    called_from = __builtin_frame_address(0);
    answer = (lingbarrow_write_xgem_frame)(given.key_index, given.xgem_port, given.options, given.last, frame, lengths.sdu, lent.target,
                                           lengths.target);
}

#define CALL(made, call, figure) {.run = made, .name = #call, .constant = #figure, .header = figure}

static struct {
    void (*run)(void);
    const char *name, *constant;
    size_t header, deepest;
    unsigned scenarios;
    char scenario[128];
} calls[CALLS] = {
    [POWER_ON] = CALL(power_on, lingbarrow_power_on, LINGBARROW_STACK_POWER_ON),
    [IN_RANGE] = CALL(in_range, lingbarrow_in_range, LINGBARROW_STACK_IN_RANGE),
    [FRAME] = CALL(arrive, lingbarrow_frame, LINGBARROW_STACK_FRAME),
    [LOST] = CALL(lose, lingbarrow_lost, LINGBARROW_STACK_LOST),
    [ADD_PORT] = CALL(add_port, lingbarrow_add_port, LINGBARROW_STACK_ADD_PORT),
    [REMOVE_PORT] = CALL(remove_port, lingbarrow_remove_port, LINGBARROW_STACK_REMOVE_PORT),
    [GIVE_KEY] = CALL(give_key, lingbarrow_give_key, LINGBARROW_STACK_GIVE_KEY),
    [STRETCH] = CALL(stretch, lingbarrow_stretch, LINGBARROW_STACK_STRETCH),
    [STRETCHES] = CALL(stretches, lingbarrow_stretches, LINGBARROW_STACK_STRETCHES),
    [WHY_DARK] = CALL(why_dark, lingbarrow_why_dark, LINGBARROW_STACK_WHY_DARK),
    [WRITE_HLEND] = CALL(write_hlend, lingbarrow_write_hlend, LINGBARROW_STACK_WRITE_HLEND),
    [WRITE_ALLOCATION] = CALL(write_allocation, lingbarrow_write_allocation, LINGBARROW_STACK_WRITE_ALLOCATION),
    [WRITE_XGEM_FRAME] = CALL(write_xgem_frame, lingbarrow_write_xgem_frame, LINGBARROW_STACK_WRITE_XGEM_FRAME),
};

static unsigned called;
static char scenario[128];

void claim(bool holds, const char *what)
{
    if (!holds) {
        printf("stack: %s, %s: answer %d, and not as it should be: %s\n", calls[called].name, scenario, answer, what);
        exit(1);
    }
}

void call(unsigned which, const char *name, unsigned wanted)
{
    size_t bytes, again;

    called = which;
    snprintf(scenario, sizeof scenario, "%s%s", where, name ? name : "on the way");
    if (!name) {
        calls[which].run();
        claim(answer == wanted, "the answer");
        return;
    }
    memcpy(&before, &lent, sizeof lent);
    bytes = painted(calls[which].run, 0xa5);
    claim(answer == wanted, "the answer");
    memcpy(&first, &lent, sizeof lent);
    memcpy(&lent, &before, sizeof lent);
    again = painted(calls[which].run, 0x5a);
    claim(answer == wanted && !memcmp(&first, &lent, sizeof lent), "the same whatever the stack held");
    if (bytes < again)
        bytes = again;
    calls[which].scenarios++;
    if (each)
        printf("%-28s %6zu  answer %2d  %s\n", calls[which].name, bytes, answer, scenario);
    if (calls[which].deepest < bytes) {
        calls[which].deepest = bytes;
        memcpy(calls[which].scenario, scenario, sizeof scenario);
    }
}

bool unchanged(void)
{
    return !memcmp(&lent, &before, sizeof lent);
}

bool reported(void)
{
    bool held = true;

    if (each)
        printf("\n");
    printf("%-28s %6s %7s %10s  %s\n", "bytes of stack", "taken", "header", "scenarios", "the deepest, or the first of them");
    for (unsigned i = 0; i < CALLS; i++)
        printf("%-28s %6zu %7zu %10u  %s\n", calls[i].name, calls[i].deepest, calls[i].header, calls[i].scenarios, calls[i].scenario);
    for (unsigned i = 0; i < CALLS; i++)
        if (calls[i].header < calls[i].deepest || calls[i].deepest + SLACK < calls[i].header) {
            printf("stack: %s takes %zu bytes of stack, and %s is %zu\n", calls[i].name, calls[i].deepest, calls[i].constant,
                   calls[i].header);
            held = false;
        }
    return held;
}
