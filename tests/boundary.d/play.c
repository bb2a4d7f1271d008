/* Plays a script of calls, on standard input, through the header: each line is a call, and the one after it says what must come back.
 *     P serial registration                 power-on
 *     F delay memory plan replies deliveries frame    a frame; how much is lent of each buffer; '-' for no bytes
 *     S number frame                        a stretch, before the frame call
 *     V length frame                        the names of the map's structures, into so many bytes of EE, before the frame call
 *     L; A port; R port; K key              a lost frame time; add and remove a port; give the key
 *     WH length map messages; WA length alloc dbru ploamu start grant fwi profile; WX length key port options last sdu
 *         the writers, into so many bytes of EE
 * What comes back: answer; for stations the state, in brackets what it holds; for a frame its counts and CRC-32 over the whole of each
 * buffer; for a stretch its place; for names their count and the names; for a writer its target.
 * Before each frame call, and with each stretch, all stretches of the frame are asked for too: they are those of the call for one. */
#include "lingbarrow.h"
#include <inttypes.h>
#include <stdio.h>
#include <stdlib.h>
#include <string.h>

static uint8_t state[LINGBARROW_STATE_BYTES];
static uint8_t memory[LINGBARROW_MEMORY_BYTES];
static uint16_t plan[LINGBARROW_PLAN_NUMBERS];
static uint8_t replies[LINGBARROW_REPLY_BYTES];
static uint8_t deliveries[LINGBARROW_DELIVERY_BYTES(LINGBARROW_FRAME_MOST)];
static size_t counts[LINGBARROW_COUNTS], place[LINGBARROW_PLACE], places[LINGBARROW_PLACES(LINGBARROW_FRAME_MOST) + 2];

static char *line, *rest, *said;
static size_t room, used;

static void fail(const char *what)
{
    fprintf(stderr, "play: %s\n", what);
    exit(2);
}

static void *or_fail(void *memory_or_not)
{
    if (!memory_or_not)
        fail("no memory");
    return memory_or_not;
}

/* The next word of the line. */
static char *word(void)
{
    char *found = strtok(rest, " ");

    rest = NULL;
    if (!found)
        fail("a line with too few words");
    return found;
}

static uint64_t number(void)
{
    return strtoull(word(), NULL, 10);
}

/* As wide as the writers take them. */
static uint32_t value(void)
{
    uint64_t found = number();

    if (found > UINT32_MAX)
        fail("a number of more than 32 bits");
    return (uint32_t)found;
}

static uint8_t digit(char c)
{
    static const char digits[] = "0123456789abcdef";
    const char *found = c ? strchr(digits, c) : NULL;

    if (!found)
        fail("octets that are not in hexadecimal");
    return (uint8_t)(found - digits);
}

/* The next word's octets, in place of its text: never null, '-' is none. */
static uint8_t *octets(size_t *length)
{
    char *hex = word();
    uint8_t *into = (uint8_t *)hex;

    *length = 0;
    if (strcmp(hex, "-"))
        for (; *hex; hex += 2)
            into[(*length)++] = (uint8_t)(digit(hex[0]) << 4 | digit(hex[1]));
    return into;
}

#define SAY(...) (used += (size_t)sprintf(said + used, __VA_ARGS__))

static void say_octets(const uint8_t *from, size_t length)
{
    SAY(length ? "" : "-");
    for (size_t i = 0; i < length; i++)
        SAY("%02x", from[i]);
}

static unsigned long held(size_t at, size_t bytes)
{
    unsigned long found = 0;

    for (size_t i = 0; i < bytes; i++)
        found = found << 8 | state[at + i];
    return found;
}

/* The state's number, and all that the header says where to find. */
static void say_state(void)
{
    SAY(" %d [%lu %d %lu ", state[LINGBARROW_AT_STATE], held(LINGBARROW_AT_TIME, 4), lingbarrow_state_onu(state).number,
        held(LINGBARROW_AT_DELAY, 4));
    say_octets(state + LINGBARROW_AT_KEY, state[LINGBARROW_AT_KEY_HELD] ? LINGBARROW_KEY_BYTES : 0);
    SAY(state[LINGBARROW_AT_ALLOC_COUNT] ? " " : " -");
    for (size_t i = 0; i < state[LINGBARROW_AT_ALLOC_COUNT]; i++)
        SAY("%s%lu", i ? "," : "", held(LINGBARROW_AT_ALLOC_IDS + 2 * i, 2));
    SAY(state[LINGBARROW_AT_OWED_COUNT] ? " " : " -");
    for (size_t i = 0; i < state[LINGBARROW_AT_OWED_COUNT]; i++) {
        const uint8_t *owed = state + LINGBARROW_AT_OWED + 2 * i;
        if (owed[0])
            SAY("%s%d:%d", i ? "," : "", owed[0] - 1, owed[1]);
        else
            SAY("%sreg:%d", i ? "," : "", owed[1]);
    }
    for (size_t i = 0; i < LINGBARROW_ADDED_PORTS; i++) {
        unsigned long port = held(LINGBARROW_AT_PORT_IDS + 2 * i, 2);
        SAY(i ? "," : " ");
        if (port)
            SAY("%lu", port);
        else
            SAY("-");
    }
    SAY(" ");
    for (size_t slot = 0; slot < LINGBARROW_SLOTS; slot++)
        SAY("%c", slot && !held(LINGBARROW_AT_PORT_IDS + 2 * (slot - 1), 2) ? '-' : state[LINGBARROW_AT_WAITING + slot] ? 'w' : '.');
    for (size_t slot = 0; slot < LINGBARROW_SLOTS; slot++)
        SAY("%s%lu", slot ? "," : " ", held(LINGBARROW_AT_PARTIALS + 2 * slot, 2));
    SAY(" %lu]", held(LINGBARROW_AT_CARRIED, 2));
}

/* zlib's CRC-32. */
static uint32_t crc(uint32_t sum, const uint8_t *from, size_t length)
{
    static uint32_t of[256];

    if (!of[1])
        for (uint32_t i = 0; i < 256; i++) {
            of[i] = i;
            for (int bit = 0; bit < 8; bit++)
                of[i] = of[i] >> 1 ^ (of[i] & 1 ? 0xedb88320u : 0);
        }
    sum = ~sum;
    for (size_t i = 0; i < length; i++)
        sum = sum >> 8 ^ of[(sum ^ from[i]) & 255];
    return ~sum;
}

/* All stretches of a frame are each of them, from the count on there is none, and past them the list is as it was. */
static void all_stretches(const uint8_t *frame, size_t length)
{
    size_t room = LINGBARROW_PLACES(length), count[LINGBARROW_STRETCH_COUNTS], one[LINGBARROW_PLACE];
    uint8_t answer;

    if (length > LINGBARROW_FRAME_MOST)
        room = LINGBARROW_PLACES(LINGBARROW_FRAME_MOST);
    for (size_t i = 0; i < room + 2; i++)
        places[i] = 77 + i;
    answer = lingbarrow_stretches(state, sizeof state, frame, length, places, room, count, LINGBARROW_STRETCH_COUNTS);
    if (2 * count[0] > room || (answer && answer != LINGBARROW_DELINEATION_LOST && count[0]))
        fail("all stretches: more than there can be");
    for (size_t k = 0; k < count[0] + 2; k++) {
        if (answer != lingbarrow_stretch(state, sizeof state, frame, length, k, one, LINGBARROW_PLACE))
            fail("all stretches and one of them answer differently");
        if (k < count[0] ? places[2 * k] != one[0] || places[2 * k + 1] != one[1] : one[0] || one[1])
            fail("all stretches are not each of them");
    }
    for (size_t i = 2 * count[0]; i < room + 2; i++)
        if (places[i] != 77 + i)
            fail("all stretches: the list past them is not as it was");
    /* one number fewer, and no room for the count: 3 where 1 and 2 is not the answer, and nothing is changed */
    if (answer != LINGBARROW_STATE_OUT_OF_RANGE && answer != LINGBARROW_FRAME_LENGTH)
        answer = LINGBARROW_BUFFER_TOO_SHORT;
    count[0] = 5;
    places[0] = 6;
    if (lingbarrow_stretches(state, sizeof state, frame, length, places, room, count, 0) != answer || count[0] != 5 || places[0] != 6)
        fail("all stretches without room for the count");
    if (room && (lingbarrow_stretches(state, sizeof state, frame, length, places, room - 1, count, LINGBARROW_STRETCH_COUNTS) != answer
                 || count[0] != 0 || places[0] != 6))
        fail("all stretches without room for them");
}

static void frame_call(void)
{
    uint32_t delay = (uint32_t)number(), plan_sum = 0;
    size_t memory_length = number(), plan_length = number(), replies_length = number(), deliveries_length = number(), length;
    const uint8_t *frame = octets(&length);

    if (memory_length > sizeof memory || plan_length > LINGBARROW_PLAN_NUMBERS || replies_length > sizeof replies
        || deliveries_length > sizeof deliveries)
        fail("a frame call that lends more than there is");
    all_stretches(frame, length);
    SAY("%d", lingbarrow_frame(state, sizeof state, memory, memory_length, frame, length, delay, plan, plan_length, replies, replies_length,
                               deliveries, deliveries_length, counts, LINGBARROW_COUNTS));
    say_state();
    for (size_t i = 0; i < LINGBARROW_PLAN_NUMBERS; i++) {
        const uint8_t pair[] = {(uint8_t)(plan[i] >> 8), (uint8_t)(plan[i] & 255)};
        plan_sum = crc(plan_sum, pair, sizeof pair);
    }
    SAY(" %zu %zu %zu %08" PRIx32 " %08" PRIx32 " %08" PRIx32 " %08" PRIx32, counts[0], counts[1], counts[2], crc(0, memory, sizeof memory),
        plan_sum, crc(0, replies, sizeof replies), crc(0, deliveries, sizeof deliveries));
}

/* The call moves no state, past the count the list is as it was, and without room for the count nothing is changed. */
static void why_dark(void)
{
    static uint8_t before[sizeof state];
    size_t names_length = number(), length, count[LINGBARROW_NAME_COUNTS] = {5};
    uint8_t *names = (uint8_t *)or_fail(malloc(names_length + 1)), answer;
    const uint8_t *frame = octets(&length);

    memset(names, 0xee, names_length);
    memcpy(before, state, sizeof state);
    answer = lingbarrow_why_dark(state, sizeof state, frame, length, names, names_length, count, 0);
    if (count[0] != 5 || (answer != LINGBARROW_BUFFER_TOO_SHORT && answer != LINGBARROW_STATE_OUT_OF_RANGE && answer != LINGBARROW_FRAME_LENGTH))
        fail("names without room for the count");
    for (size_t i = 0; i < names_length; i++)
        if (names[i] != 0xee)
            fail("names are written without room for the count");
    SAY("%d", lingbarrow_why_dark(state, sizeof state, frame, length, names, names_length, count, LINGBARROW_NAME_COUNTS));
    if (memcmp(before, state, sizeof state))
        fail("asking for names moves the state");
    SAY(" %zu ", count[0]);
    say_octets(names, count[0]);
    for (size_t i = count[0]; i < names_length; i++)
        if (names[i] != 0xee)
            fail("the list past the names is not as it was");
    free(names);
}

static void writer(char which)
{
    size_t length = number(), sdu_length;
    uint8_t *target = (uint8_t *)or_fail(malloc(length + 1)), answer;

    memset(target, 0xee, length);
    if (which == 'H') {
        uint32_t map = value(), messages = value();
        answer = lingbarrow_write_hlend(map, messages, target, length);
    } else if (which == 'A') {
        uint32_t alloc = value(), dbru = value(), ploamu = value(), start = value(), grant = value(), fwi = value(), profile = value();
        answer = (lingbarrow_write_allocation)(alloc, dbru, ploamu, start, grant, fwi, profile, target, length);
    } else {
        uint32_t key = value(), port = value(), options = value(), last = value();
        const uint8_t *sdu = octets(&sdu_length);
        answer = (lingbarrow_write_xgem_frame)(key, port, options, last, sdu, sdu_length, target, length);
    }
    SAY("%d ", answer);
    say_octets(target, length);
    free(target);
}

static void play(void)
{
    const char *call = word();
    size_t length, other;

    used = 0;
    SAY("= ");
    switch (call[0]) {
    case 'P': {
        const uint8_t *serial = octets(&length), *registration = octets(&other);
        SAY("%d", lingbarrow_power_on(state, sizeof state, serial, length, registration, other));
        break;
    }
    case 'F': frame_call(); return;
    case 'S': {
        size_t k = number();
        const uint8_t *frame = octets(&length);
        all_stretches(frame, length);
        SAY("%d", lingbarrow_stretch(state, sizeof state, frame, length, k, place, LINGBARROW_PLACE));
        SAY(" %zu %zu", place[0], place[1]);
        return;
    }
    case 'V': why_dark(); return;
    case 'L': SAY("%d", lingbarrow_lost(state, sizeof state)); break;
    case 'A': SAY("%d", lingbarrow_add_port(state, sizeof state, lingbarrow_port_id_of((uint16_t)number()))); break;
    case 'R': SAY("%d", lingbarrow_remove_port(state, sizeof state, lingbarrow_port_id_of((uint16_t)number()))); break;
    case 'K': {
        const uint8_t *key = octets(&length);
        SAY("%d", lingbarrow_give_key(state, sizeof state, key, length));
        break;
    }
    case 'W': writer(call[1]); return;
    default: fail("a line that is no call");
    }
    say_state();
}

static int next_line(void)
{
    size_t length = 0;

    while (fgets(line + length, (int)(room - length), stdin)) {
        length += strlen(line + length);
        if (length && line[length - 1] == '\n') {
            line[length - 1] = 0;
            return 1;
        }
    }
    return 0;
}

int main(void)
{
    unsigned long calls = 0;

    room = 4 * LINGBARROW_FRAME_MOST;
    line = (char *)or_fail(malloc(room));
    said = (char *)or_fail(malloc(room));
    memset(memory, 0xa5, sizeof memory);
    memset(plan, 0xaa, sizeof plan);
    memset(replies, 0xbb, sizeof replies);
    memset(deliveries, 0xcc, sizeof deliveries);
    while (next_line()) {
        rest = line;
        play();
        calls++;
        if (!next_line() || strcmp(line, said)) {
            printf("play: call %lu: came back and was wanted:\n%s\n%s\n", calls, said, line);
            return 1;
        }
    }
    printf("%lu\n", calls);
    return calls == 0;
}
