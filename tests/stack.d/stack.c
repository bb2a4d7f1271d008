/* How many bytes of stack each exported call takes, held to what include/lingbarrow.h says of it. The calls are driven through their
 * answers from each state that a station can have, and what they give is compared with what the head end believes.
 *     stack              a line for each call
 *     stack scenarios    one for each scenario too */
#include "calls.h"
#include "headend.h"
#include <stdio.h>
#include <string.h>

#define COUNT(array) (sizeof(array) / sizeof *(array))

static struct lent kept;
static struct believed station_kept;
static bool timer_ends;

static unsigned onu_id(void)
{
    return (unsigned)(lent.state[LINGBARROW_AT_ONU_ID] << 8 | lent.state[LINGBARROW_AT_ONU_ID + 1]);
}

static void claim_state(unsigned state, uint32_t delay)
{
    const uint8_t *d = lent.state + LINGBARROW_AT_DELAY;

    claim(lent.state[LINGBARROW_AT_STATE] == state, "the state");
    claim(onu_id() == (state == O4 || state == O5 || state == O6 ? OWN : EVERYONE), "the ONU-ID");
    claim(((uint32_t)d[0] << 24 | (uint32_t)d[1] << 16 | (uint32_t)d[2] << 8 | d[3]) == delay, "the delay");
}

/* The frame that was written arrives, and a frame time passes. Where it is not read, or a timer ends with it, that is believed here. */
static void frame_arrives(const char *what, unsigned wanted)
{
    static const size_t nothing[LINGBARROW_COUNTS];
    const size_t counts[] = {expected.records, expected.replies, expected.bytes};
    bool done = wanted == LINGBARROW_DONE || wanted == LINGBARROW_DELINEATION_LOST;

    memset(lent.counts, 0x77, sizeof lent.counts);
    call(FRAME, what, wanted);
    claim(!memcmp(lent.counts, done ? counts : nothing, sizeof counts), "the counts");
    if (done)
        claim(!memcmp(lent.replies, expected.reply, 48 * expected.replies), "the replies");
    else
        after = station;
    if (wanted)
        all_wait(&after);
    if (timer_ends) {
        after.state = station.state == O4 ? O2_3 : O1;
        forget(&after);
    }
    claim_state(after.state, after.delay);
    station = after;
}

static void frame_is_lost(const char *what)
{
    call(LOST, what, LINGBARROW_DONE);
    if (station.state == O2_3 || station.state == O4 || (station.state == O6 && timer_ends)) {
        station.state = O1;
        forget(&station);
    } else if (station.state == O5)
        station.state = O6;
    all_wait(&station);
    claim_state(station.state, station.delay);
}

static void empty(const char *what)
{
    begin_frame();
    end_frame();
    frame_arrives(what, LINGBARROW_DONE);
}

static void messages(const char *what, unsigned count, const struct kind *kind, bool genuine)
{
    begin_frame();
    for (unsigned i = 0; i < count; i++)
        put_message(kind, genuine);
    end_frame();
    frame_arrives(what, LINGBARROW_DONE);
}

/* As many bursts as a frame can have, and so as many replies. */
static void grants(const char *what)
{
    bool ours = station.state == O2_3 || station.state == O4 || station.state == O5;

    begin_frame();
    for (unsigned i = 0; i < MOST_BURSTS; i++)
        put_entry(station.state == O2_3 ? EVERYONE : OWN, 0, 1, 14 * i, 0, ours);
    end_frame();
    frame_arrives(what, LINGBARROW_DONE);
}

static void answered(const char *what)
{
    do
        grants(what);
    while (station.owing);
}

/* In O5 with everything held that there is to hold: Alloc-IDs, ports that don't wait, partials; in other states what they can have. */
static void enter(unsigned state, bool keyed)
{
    memset(&lent, 0, sizeof lent);
    call(POWER_ON, NULL, LINGBARROW_DONE);
    power_on_believed();
    for (given.port = PORT; given.port < PORT + PORTS; given.port++)
        call(ADD_PORT, NULL, LINGBARROW_DONE);
    if (state == O1)
        return;
    empty(NULL);
    if (state == O2_3)
        return;
    if (state == O7) {
        messages(NULL, 1, &moving[DISABLED], true);
        return;
    }
    messages(NULL, 1, &moving[ASSIGNED], true);
    if (keyed) {
        call(GIVE_KEY, NULL, LINGBARROW_DONE);
        station.keyed = true;
    }
    if (state == O4)
        return;
    messages(NULL, 1, &moving[RANGED], true);
    answered(NULL);
    for (unsigned alloc = ALLOC; alloc < ALLOC + ALLOCS; alloc++) {
        struct kind assign = {"", OWN, ASSIGN_ALLOC_ID, {(uint8_t)(alloc >> 8), (uint8_t)alloc, 1}, IN(O5), 0, ACKNOWLEDGEMENT, OK};

        messages(NULL, 1, &assign, true);
        answered(NULL);
    }
    begin_frame();
    for (unsigned i = 0; i < PORTS; i++) {
        put_xgem(PORT + i, 1, 9);
        put_xgem(PORT + i, 0, 1 + 100 * i);
    }
    end_frame();
    frame_arrives(NULL, LINGBARROW_DONE);
    if (state == O6)
        frame_is_lost(NULL);
}

static void keep(void)
{
    memset(lent.counts, 0, sizeof lent.counts);
    memset(lent.place, 0, sizeof lent.place);
    memset(lent.stretch_counts, 0, sizeof lent.stretch_counts);
    memset(lent.name_counts, 0, sizeof lent.name_counts);
    memcpy(&kept, &lent, sizeof lent);
    station_kept = station;
}

static void back(void)
{
    memcpy(&lent, &kept, sizeof lent);
    station = station_kept;
    lengths = whole;
}

/* Series of ours that are planned, all with as many entries as they may have; and for each reason there is, some that are not. */
static void map(bool readable)
{
    bool ours = readable && (station.state == O4 || station.state == O5), discovered = readable && station.state == O2_3;
    unsigned word = 0, count = 0;

    for (unsigned burst = 0; burst < MOST_BURSTS; burst++) {
        for (unsigned i = 0; i < 16; i++)
            put_entry(i && station.state == O5 ? ALLOC + i : OWN, i % 3 == 1, i == 0, i ? CONTINUES : word, 8, ours);
        word += 1 + 12 + 16 * 8 + 1;
        put_entry(OWN, 0, 0, CONTINUES, 8, false);  /* a 17th */
        put_entry(FOREIGN, 0, 1, word, 8, false);
        put_entry(OWN, 0, 0, CONTINUES, 8, false);  /* of a foreign series */
        put_entry(EVERYONE, 0, 1, 14 * burst, 0, discovered);
        put_entry(OWN, 0, 1, word - 1, 8, false);   /* before the last one ends */
        put_entry(OWN, 0, 1, word, 9707, false);    /* 9,721 words */
        put_entry(OWN, 0, 1, 9720, 8, false);       /* no StartTime */
        put_entry(OWN, 1, 1, word, 0, false);       /* DBRu without a grant */
        count += 16 + 8;
    }
    for (; count < MOST_ENTRIES; count++)       /* four are planned already */
        put_entry(count % 2 ? OWN : FOREIGN, 0, 1, count % 3 ? 9000 : CONTINUES, 8, false);
}

/* Fragments of all sizes to all ports. */
static void payload(void)
{
    static const size_t sizes[] = {0, 1, 7, 8, 9, 64, 700, 1348, 1500, 2048, 2049};

    put_xgem(OWN, 1, 16383);
    for (unsigned i = 0; LINGBARROW_FRAME_MOST - frame_length > 4096; i++)
        put_xgem(i % 10 == 9 ? FOREIGN : i % 10 == 8 ? IDLE : i % 3 ? PORT + i % PORTS : OWN, i / 3 % 3 != 0, sizes[i % COUNT(sizes)]);
}

/* The longest frame, with as many entries and messages as it can have: of each kind those that stay, genuine and not, and those that
 * would lead elsewhere and are not genuine. Another kind comes first each time, since only eight answers are owed. */
static void house(unsigned flips, const struct kind *last)
{
    static unsigned turn;

    begin_frame();
    map(flips < 3);
    for (unsigned i = last ? 1 : 0; i < MOST_MESSAGES; i++) {
        unsigned k = turn++ % (2 * stayings + MOVING);

        if (k < 2 * stayings)
            put_message(&staying[k / 2], k % 2);
        else
            put_message(&moving[k - 2 * stayings], false);
    }
    if (last)
        put_message(last, true);
    payload();
    put_idle();
    end_frame();
    damage_headers(flips);
    if (flips == 3)
        expected.bytes = expected.deliveries = 0;
}

/* All of them at once; and a delivery that stands in one piece, one of several fragments, the last, and none. */
static void stretches(const char *what, unsigned wanted)
{
    bool walked = wanted == LINGBARROW_DONE || wanted == LINGBARROW_DELINEATION_LOST;
    size_t count = walked ? expected.deliveries : 0, piece = 0, fragments = 0;

    while (piece < count && !expected.stretch[piece].bytes)
        piece++;
    while (fragments < count && expected.stretch[fragments].bytes)
        fragments++;
    const size_t numbers[] = {piece, fragments, count - 1, count};

    for (unsigned i = 0; i < COUNT(numbers); i++) {
        bool delivered = numbers[i] < count;

        given.number = numbers[i];
        memset(lent.place, 0x77, sizeof lent.place);
        call(STRETCH, what, wanted);
        claim(lent.place[0] == (delivered ? expected.stretch[numbers[i]].at : 0), "the stretch's offset");
        claim(lent.place[1] == (delivered ? expected.stretch[numbers[i]].bytes : 0), "the stretch's length");
    }
    memset(lent.places, 0x77, sizeof lent.places);
    memset(lent.stretch_counts, 0x77, sizeof lent.stretch_counts);
    call(STRETCHES, what, wanted);
    claim(lent.stretch_counts[0] == count, "the count of stretches");
    for (size_t i = 0; i < count; i++)
        claim(lent.places[2 * i] == expected.stretch[i].at && lent.places[2 * i + 1] == expected.stretch[i].bytes, "each stretch");
    for (size_t i = 2 * count; i < LINGBARROW_PLACES(LINGBARROW_FRAME_MOST); i++)
        claim(!memcmp(lent.places + i, "\x77\x77\x77\x77\x77\x77\x77\x77", sizeof lent.places[i]), "the list past the stretches");
}

/* What became of each structure of a map: as many as there are, and past them the list is as it was. */
static void names(const char *what, unsigned wanted)
{
    size_t count = wanted == LINGBARROW_DONE || wanted == LINGBARROW_DELINEATION_LOST ? MOST_ENTRIES : 0;

    memset(lent.names, 0x77, sizeof lent.names);
    call(WHY_DARK, what, wanted == LINGBARROW_DELINEATION_LOST ? LINGBARROW_DONE : wanted);
    claim(lent.name_counts[0] == count, "the count of names");
    for (size_t i = 0; i < sizeof lent.names; i++)
        claim(i < count ? lent.names[i] <= LINGBARROW_NAME_SILENT : lent.names[i] == 0x77, "each name, and the list past them");
}

static void houses(void)
{
    char name[96];

    for (unsigned flips = 0; flips <= 3; flips++) {
        unsigned wanted = flips == 3 && station_kept.state == O5 ? LINGBARROW_DELINEATION_LOST : LINGBARROW_DONE;

        back();
        house(flips, NULL);
        snprintf(name, sizeof name, "full house, bits wrong in each header: %u", flips);
        stretches(name, wanted);
        names(name, wanted);
        frame_arrives(name, wanted);
        answered("four grants, after a full house");
    }
    for (unsigned flips = 1; flips <= 3; flips++) {
        unsigned wanted = flips == 3 ? LINGBARROW_HLEND_UNREADABLE : LINGBARROW_DONE;

        back();
        house(0, NULL);
        damage_hlend(flips);
        snprintf(name, sizeof name, "full house, bits wrong in HLend: %u", flips);
        stretches(name, wanted);
        names(name, wanted);
        frame_arrives(name, wanted);
    }
    back();
    house(0, NULL);
    frame_length = 4 + 8 * MOST_ENTRIES + 48 * MOST_MESSAGES - 4;
    stretches("a header longer than the frame", LINGBARROW_HEADER_TOO_LONG);
    names("a header longer than the frame", LINGBARROW_HEADER_TOO_LONG);
    frame_arrives("a header longer than the frame", LINGBARROW_HEADER_TOO_LONG);
}

/* Each kind alone, genuine and not, with all answers that are then owed; and what leads elsewhere at the end of a full house too. */
static void kinds(void)
{
    char name[96];

    for (unsigned k = 0; k < stayings + MOVING; k++) {
        const struct kind *kind = k < stayings ? &staying[k] : &moving[k - stayings];

        back();
        snprintf(name, sizeof name, "%s, not genuine", kind->name);
        messages(name, 1, kind, false);
        back();
        messages(kind->name, 1, kind, true);
        answered("four grants");
        if (k >= stayings) {
            back();
            snprintf(name, sizeof name, "full house, then %s", kind->name);
            house(2, kind);
            frame_arrives(name, LINGBARROW_DONE);
        }
    }
}

static void many_messages(void)
{
    static const unsigned counts[] = {1, 8, MOST_MESSAGES};
    char name[96];

    for (unsigned i = 0; i < COUNT(counts); i++)
        for (unsigned genuine = 0; genuine < 2; genuine++) {
            const char *which = genuine ? "genuine" : "not genuine";

            back();
            snprintf(name, sizeof name, "messages to all: %u, %s", counts[i], which);
            messages(name, counts[i], &staying[RELATIVE_TO_ALL], genuine);
            back();
            snprintf(name, sizeof name, "directed messages: %u, %s", counts[i], which);
            messages(name, counts[i], &staying[RELATIVE], genuine);
            snprintf(name, sizeof name, "four grants, after directed messages: %u, %s", counts[i], which);
            answered(name);
            back();
            begin_frame();
            for (unsigned k = 0; k < counts[i]; k++)
                put_message(&staying[k % 2 ? RELATIVE_TO_ALL : RELATIVE], genuine);
            end_frame();
            snprintf(name, sizeof name, "messages to all and directed in turns: %u, %s", counts[i], which);
            frame_arrives(name, LINGBARROW_DONE);
        }
}

/* From O2-3 to O5 in one frame, and an Alloc-ID taken away and given again in one. */
static void many_steps(void)
{
    struct kind added = {"", OWN, ASSIGN_ALLOC_ID, {ALLOC >> 8, ALLOC & 255, 1}, IN(O5), 0, ACKNOWLEDGEMENT, OK}, removed = added;

    removed.content[2] = 255;
    back();
    begin_frame();
    if (station.state == O2_3)
        put_message(&moving[ASSIGNED], true);
    if (station.state == O2_3 || station.state == O4)
        put_message(&moving[RANGED], true);
    put_message(&added, true);
    put_message(&removed, true);
    put_message(&added, true);
    end_frame();
    frame_arrives("messages up to O5, and Alloc-IDs", LINGBARROW_DONE);
    answered("four grants, after Alloc-IDs");
}

/* Eight answers are owed, and a full house takes four of them. */
static void owing(void)
{
    back();
    if (station.state != O5)
        return;
    messages(NULL, MOST_OWED, &staying[RELATIVE], true);
    claim(station.owing == MOST_OWED, "eight answers owed");
    house(2, NULL);
    frame_arrives("full house, eight answers owed", LINGBARROW_DONE);
    answered("four grants, after eight were owed");
}

static void delineation(void)
{
    unsigned wanted = station_kept.state == O5 ? LINGBARROW_DELINEATION_LOST : LINGBARROW_DONE;

    back();
    begin_frame();
    payload();
    put_xgem(FOREIGN, 1, 64);
    end_frame();
    frame_length -= 4;
    stretches("a payload longer than what is left", wanted);
    frame_arrives("a payload longer than what is left", wanted);
    back();
    begin_frame();
    payload();
    put_xgem(FOREIGN, 1, 64);
    end_frame();
    damage_last_header(3);
    stretches("an unreadable header at the end", wanted);
    frame_arrives("an unreadable header at the end", wanted);
}

/* TO1 and TO2 at their last count, and each call that then ends them. */
static void timers(void)
{
    back();
    if (station.state != O4 && station.state != O6)
        return;
    begin_frame();
    end_frame();
    for (unsigned i = 1; i < (station.state == O4 ? 80000 : 800); i++)
        call(station.state == O4 ? FRAME : LOST, NULL, LINGBARROW_DONE);
    claim_state(station.state, station.delay);
    keep();
    timer_ends = true;
    if (station.state == O4)
        empty("an empty frame, and TO1 ends");
    else
        frame_is_lost("TO2 ends");
    back();
    house(0, NULL);
    damage_hlend(3);
    frame_arrives("HLend unreadable, and a timer ends", LINGBARROW_HLEND_UNREADABLE);
    back();
    house(0, NULL);
    frame_length = 400;
    frame_arrives("a header longer than the frame, and a timer ends", LINGBARROW_HEADER_TOO_LONG);
    timer_ends = false;
}

/* A call that changes nothing. */
static void refused(unsigned which, const char *what, unsigned wanted)
{
    call(which, what, wanted);
    claim(unchanged(), "nothing is changed");
    lengths = whole;
}

static void set_onu_id(unsigned id)
{
    lent.state[LINGBARROW_AT_ONU_ID] = (uint8_t)(id >> 8);
    lent.state[LINGBARROW_AT_ONU_ID + 1] = (uint8_t)id;
}

/* What all calls refuse that take a state. */
static void states_refused(void)
{
    static const unsigned taking[] = {IN_RANGE, FRAME, LOST, ADD_PORT, REMOVE_PORT, GIVE_KEY, STRETCH, STRETCHES, WHY_DARK};

    back();
    begin_frame();
    end_frame();
    given.port = PORT;
    given.number = 0;
    for (unsigned i = 0; i < COUNT(taking); i++) {
        back();
        lengths.state--;
        refused(taking[i], "a state that is too short", LINGBARROW_BUFFER_TOO_SHORT);
        lent.state[LINGBARROW_AT_VERSION]++;
        refused(taking[i], "a state of another version", LINGBARROW_STATE_OUT_OF_RANGE);
        back();
        lent.state[LINGBARROW_AT_STATE] = 3;
        refused(taking[i], "octets that are no state's", LINGBARROW_STATE_OUT_OF_RANGE);
        back();
        set_onu_id(onu_id() == OWN ? EVERYONE : OWN);
        refused(taking[i], "a state out of range", LINGBARROW_STATE_OUT_OF_RANGE);
        lengths.counts = lengths.place = lengths.key = 0;
        refused(taking[i], "a state out of range, and no room", LINGBARROW_STATE_OUT_OF_RANGE);
    }
}

static void frames_refused(void)
{
    static const size_t unfit[] = {0, 2, 6, LINGBARROW_FRAME_MOST + 4};

    back();
    begin_frame();
    end_frame();
    lengths.memory--;
    refused(FRAME, "port memory that is too short", LINGBARROW_BUFFER_TOO_SHORT);
    lengths.plan--;
    refused(FRAME, "a plan that is too short", LINGBARROW_BUFFER_TOO_SHORT);
    lengths.replies--;
    refused(FRAME, "replies that are too short", LINGBARROW_BUFFER_TOO_SHORT);
    lengths.deliveries = LINGBARROW_DELIVERY_BYTES(frame_length) - 1;
    refused(FRAME, "deliveries that are too short", LINGBARROW_BUFFER_TOO_SHORT);
    lengths.counts--;
    refused(FRAME, "counts that are too short", LINGBARROW_BUFFER_TOO_SHORT);
    lengths.place--;
    refused(STRETCH, "a place that is too short", LINGBARROW_BUFFER_TOO_SHORT);
    lengths.stretch_counts--;
    refused(STRETCHES, "no room for the count", LINGBARROW_BUFFER_TOO_SHORT);
    lengths.name_counts--;
    refused(WHY_DARK, "no room for the count", LINGBARROW_BUFFER_TOO_SHORT);
    lengths.names--;
    refused(WHY_DARK, "a list that is too short", LINGBARROW_BUFFER_TOO_SHORT);
    frame_length = 8;
    lengths.places = LINGBARROW_PLACES(frame_length) - 1;
    refused(STRETCHES, "a list that is too short", LINGBARROW_BUFFER_TOO_SHORT);
    for (unsigned i = 0; i < COUNT(unfit); i++) {
        frame_length = unfit[i];
        refused(FRAME, "a length that no frame has", LINGBARROW_FRAME_LENGTH);
        refused(STRETCH, "a length that no frame has", LINGBARROW_FRAME_LENGTH);
        refused(STRETCHES, "a length that no frame has", LINGBARROW_FRAME_LENGTH);
        refused(WHY_DARK, "a length that no frame has", LINGBARROW_FRAME_LENGTH);
        lengths.counts--;
        refused(FRAME, "a length that no frame has, and counts that are too short", LINGBARROW_FRAME_LENGTH);
        lengths.place--;
        refused(STRETCH, "a length that no frame has, and a place that is too short", LINGBARROW_FRAME_LENGTH);
    }
}

static void host_calls(void)
{
    bool takes_key = station_kept.state == O4 || station_kept.state == O5 || station_kept.state == O6;

    back();
    refused(IN_RANGE, "a state in range", LINGBARROW_DONE);
    frame_is_lost("a lost frame time");
    back();
    for (given.port = PORT; given.port < PORT + PORTS; given.port++) {
        call(REMOVE_PORT, "a port of sixteen", LINGBARROW_DONE);
        claim(!unchanged(), "a port is removed");
        refused(REMOVE_PORT, "a port that is not held", LINGBARROW_PORT_HELD_OR_NOT);
        call(ADD_PORT, "a sixteenth port", LINGBARROW_DONE);
        claim(!unchanged(), "a port is added");
        refused(ADD_PORT, "a port that is held", LINGBARROW_PORT_HELD_OR_NOT);
    }
    refused(ADD_PORT, "a 17th port", LINGBARROW_SLOTS_TAKEN);
    for (unsigned i = 0; i < 2; i++) {
        given.port = i ? IDLE : EVERYONE - 1;
        refused(ADD_PORT, "a port out of range", LINGBARROW_PORT_OUT_OF_RANGE);
        refused(REMOVE_PORT, "a port out of range", LINGBARROW_PORT_OUT_OF_RANGE);
    }
    back();
    lengths.key--;
    refused(GIVE_KEY, "a key that is too short", LINGBARROW_BUFFER_TOO_SHORT);
    if (!takes_key)
        refused(GIVE_KEY, "a key in a state that takes none", LINGBARROW_KEY_REFUSED);
    else {
        call(GIVE_KEY, "a key", LINGBARROW_DONE);
        claim(unchanged() == station.keyed, "the key is taken");
    }
}

static void power_ons(void)
{
    lengths = whole;
    lengths.state--;
    refused(POWER_ON, "a state that is too short", LINGBARROW_BUFFER_TOO_SHORT);
    lengths.serial--;
    refused(POWER_ON, "a serial number that is too short", LINGBARROW_BUFFER_TOO_SHORT);
    lengths.registration--;
    refused(POWER_ON, "a Registration ID that is too short", LINGBARROW_BUFFER_TOO_SHORT);
    call(POWER_ON, "done", LINGBARROW_DONE);
    claim_state(O1, 0);
}

static void written(unsigned which, const char *what)
{
    memset(lent.target, 0xcc, sizeof lent.target);
    call(which, what, LINGBARROW_DONE);
    claim(!unchanged(), "something is written");
}

/* The field holds the widest value that fits it. */
static void too_wide(unsigned which, uint32_t *field, const char *what)
{
    ++*field;
    refused(which, what, LINGBARROW_NOT_WRITTEN);
    --*field;
}

static void hlends(void)
{
    given.bwmap = 2047;
    given.ploam = 255;
    written(WRITE_HLEND, "written");
    too_wide(WRITE_HLEND, &given.bwmap, "a BWmap length too wide");
    too_wide(WRITE_HLEND, &given.ploam, "a PLOAM count too wide");
    lengths.target = 3;
    refused(WRITE_HLEND, "a target that is too short", LINGBARROW_NOT_WRITTEN);
}

static void allocations(void)
{
    given.alloc = 16383;
    given.dbru = given.ploamu = given.fwi = 1;
    given.start = given.grant = 65535;
    given.profile = 3;
    written(WRITE_ALLOCATION, "written");
    too_wide(WRITE_ALLOCATION, &given.alloc, "an Alloc-ID too wide");
    too_wide(WRITE_ALLOCATION, &given.dbru, "DBRu too wide");
    too_wide(WRITE_ALLOCATION, &given.ploamu, "PLOAMu too wide");
    too_wide(WRITE_ALLOCATION, &given.start, "a StartTime too wide");
    too_wide(WRITE_ALLOCATION, &given.grant, "a GrantSize too wide");
    too_wide(WRITE_ALLOCATION, &given.fwi, "FWI too wide");
    too_wide(WRITE_ALLOCATION, &given.profile, "a profile too wide");
    lengths.target = 7;
    refused(WRITE_ALLOCATION, "a target that is too short", LINGBARROW_NOT_WRITTEN);
}

static void xgem_frames(void)
{
    static const size_t sizes[] = {0, 1, 7, 8, 9, 64, 1500, 16383};
    char name[64];

    given.key_index = 3;
    given.xgem_port = 65535;
    given.options = 0x3ffff;
    given.last = 1;
    for (unsigned i = 0; i < COUNT(sizes); i++) {
        lengths = whole;
        lengths.sdu = sizes[i];
        snprintf(name, sizeof name, "an SDU of %zu", sizes[i]);
        written(WRITE_XGEM_FRAME, name);
        lengths.target = 8 + payload_size(sizes[i]) - 1;
        refused(WRITE_XGEM_FRAME, "a target that is too short", LINGBARROW_NOT_WRITTEN);
    }
    lengths.sdu = 16384;
    refused(WRITE_XGEM_FRAME, "an SDU too long", LINGBARROW_NOT_WRITTEN);
    too_wide(WRITE_XGEM_FRAME, &given.key_index, "a key index too wide");
    too_wide(WRITE_XGEM_FRAME, &given.xgem_port, "a Port-ID too wide");
    too_wide(WRITE_XGEM_FRAME, &given.options, "options too wide");
    too_wide(WRITE_XGEM_FRAME, &given.last, "LF too wide");
}

int main(int argc, char **argv)
{
    static const struct {
        const char *name;
        unsigned state;
        bool keyed;
    } starts[] = {
        {"O5, a key: ", O5, true}, {"O5: ", O5, false},     {"O4, a key: ", O4, true}, {"O4: ", O4, false}, {"O6, a key: ", O6, true},
        {"O6: ", O6, false},       {"O2-3: ", O2_3, false}, {"O1: ", O1, false},       {"O7: ", O7, false},
    };

    each = argc > 1 && !strcmp(argv[1], "scenarios");
    power_ons();
    hlends();
    allocations();
    xgem_frames();
    for (unsigned i = 0; i < COUNT(starts); i++) {
        where = starts[i].name;
        lengths = whole;
        enter(starts[i].state, starts[i].keyed);
        keep();
        houses();
        owing();
        kinds();
        many_messages();
        many_steps();
        delineation();
        back();
        empty("an empty frame");
        host_calls();
        states_refused();
        frames_refused();
        timers();
    }
    return !reported();
}
