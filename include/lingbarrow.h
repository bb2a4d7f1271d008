/* Lingbarrow: the receive engine of an XG-PON terminal (ITU-T G.987.3).
 *
 * A station's run: lingbarrow_power_on once; then for each frame time of 125 us lingbarrow_frame, or lingbarrow_lost; ports and the key
 * at any time between. Each call gets the state and the port memory as the last one left them: they are the station's own.
 * A stretch of a frame is asked for BEFORE that frame's lingbarrow_frame: see lingbarrow_stretch, lingbarrow_stretches. So is why a
 * structure of its map stays dark: see lingbarrow_why_dark.
 *
 * Every call answers for every content of every buffer: nothing that the bytes or the lengths say is undefined behaviour. What
 * C must grant, and no code can test:
 *   - no pointer is null, also where its length is 0, and each points to as many elements as its length says;
 *   - `plan` is aligned to 2 bytes, `counts`, `place` and `places` to that of size_t;
 *   - no two buffers of one call overlap.
 * No call keeps a pointer, allocates, or has state of its own: calls on different buffers may run at the same time.
 *
 * ONU-ID, Alloc-ID and Port-ID are a type each, and a wrong kind does not compile. C99 and C++ alike.
 *
 * Secret are the Registration ID and the key: where a state holds them, and a Registration among the replies, which carries the
 * Registration ID. Port memory and deliveries are subscribers' traffic.
 */
#ifndef LINGBARROW_H
#define LINGBARROW_H

#include <stddef.h>
#include <stdint.h>

/* The library is code for 64-bit x86-64 Linux. LINGBARROW_ANY_TARGET lets a syntax check pass elsewhere; nothing links there. */
#if !defined(LINGBARROW_ANY_TARGET) && !(defined(__x86_64__) && defined(__LP64__) && defined(__linux__))
#error "Lingbarrow is code for 64-bit x86-64 Linux; define LINGBARROW_ANY_TARGET to check syntax for another target"
#endif

#define LINGBARROW_VERSION "0.4.0"
#define LINGBARROW_VERSION_MAJOR 0
#define LINGBARROW_VERSION_MINOR 4
#define LINGBARROW_VERSION_PATCH 0

#ifdef __cplusplus
extern "C" {
#endif

/* Lengths of the lent buffers: what is shorter is answered 3, what is longer is not touched past its length. */
#define LINGBARROW_STATE_BYTES (LINGBARROW_AT_CARRIED + 2) /* 208 */
#define LINGBARROW_SERIAL_BYTES 8
#define LINGBARROW_REGISTRATION_BYTES 36
#define LINGBARROW_KEY_BYTES 16
#define LINGBARROW_MEMORY_BYTES 34816 /* port memory: 17 slots of 2,048 */
#define LINGBARROW_PLAN_NUMBERS 256   /* 64 records of four */
#define LINGBARROW_REPLY_BYTES 192    /* four messages of 48 */
#define LINGBARROW_DELIVERY_BYTES(frame_bytes) ((size_t)(frame_bytes) + LINGBARROW_MEMORY_BYTES)
#define LINGBARROW_COUNTS 3
#define LINGBARROW_PLACE 2
#define LINGBARROW_PLACES(frame_bytes) ((size_t)(frame_bytes) / 8) /* of all stretches: an SDU takes 16 bytes of the frame at least, and two numbers */
#define LINGBARROW_STRETCH_COUNTS 1
#define LINGBARROW_NAMES 2047 /* of a map's structures: HLend can count so many */
#define LINGBARROW_NAME_COUNTS 1
#define LINGBARROW_FRAME_MOST 135432  /* a frame has 4 bytes to so many, a multiple of 4 */
#define LINGBARROW_DELAY_MOST 119439  /* bit times, 48 us: a longer random delay counts as this */

/* A record of the plan is four numbers: which is what, and the flags. */
#define LINGBARROW_RECORD_NUMBERS 4
#define LINGBARROW_RECORD_ALLOC 0 /* Alloc-ID */
#define LINGBARROW_RECORD_FLAGS 1
#define LINGBARROW_RECORD_START 2 /* burst start */
#define LINGBARROW_RECORD_GRANT 3 /* GrantSize in words of 4 bytes */
#define LINGBARROW_FLAG_HEAD 1          /* the first record of a burst */
#define LINGBARROW_FLAG_PLOAMU 2        /* on a head: the burst sends the next reply */
#define LINGBARROW_FLAG_DBRU 4
#define LINGBARROW_FLAG_FWI 8           /* the head's, on each record of the burst */
#define LINGBARROW_FLAG_PROFILE_SHIFT 4 /* burst profile, 0 to 3: flags >> 4; the head's too */

/* A PLOAM message has 48 bytes; where each of its fields stands. */
#define LINGBARROW_MESSAGE_BYTES 48
#define LINGBARROW_MESSAGE_ADDRESS 0    /* 2: ONU-ID */
#define LINGBARROW_MESSAGE_TYPE 2       /* 1 */
#define LINGBARROW_MESSAGE_SEQNO 3      /* 1 */
#define LINGBARROW_MESSAGE_CONTENT 4    /* 36 */
#define LINGBARROW_MESSAGE_INTEGRITY 40 /* 8 */

/* A delivery: its head, then so many bytes as its length says. */
#define LINGBARROW_DELIVERY_PORT 0   /* 2: Port-ID */
#define LINGBARROW_DELIVERY_LENGTH 2 /* 2 */
#define LINGBARROW_DELIVERY_HEAD 4   /* bytes of the head */

/* Numbers of the states of clause 12, as LINGBARROW_AT_STATE has them. */
#define LINGBARROW_O1 1
#define LINGBARROW_O2_3 2
#define LINGBARROW_O4 4
#define LINGBARROW_O5 5
#define LINGBARROW_O6 6
#define LINGBARROW_O7 7

/* What became of a structure of the map, as lingbarrow_why_dark names it: the first of these that is so, but for the last, which comes
 * before all. 7 to 9 are of a whole burst, and each of its structures has that name. */
#define LINGBARROW_NAME_PLANNED 0
#define LINGBARROW_NAME_UNREADABLE 1         /* no true word is near */
#define LINGBARROW_NAME_START_TIME_UNFIT 2   /* 9720 to 65534 */
#define LINGBARROW_NAME_DBRU_WITHOUT_ROOM 3  /* DBRu with GrantSize 0 */
#define LINGBARROW_NAME_FOREIGN 4            /* not ours in this state: another's Alloc-ID, or a grant that this state does not take */
#define LINGBARROW_NAME_CONTINUING_NOTHING 5 /* ours and continuing, behind an entry of no burst of ours */
#define LINGBARROW_NAME_SEVENTEENTH 6        /* ours and continuing, straight behind the sixteen of a burst */
#define LINGBARROW_NAME_TOO_LONG 7           /* a burst of more than 9720 words */
#define LINGBARROW_NAME_OVERLAPPING 8        /* a burst that starts before the last planned one has ended */
#define LINGBARROW_NAME_AFTER_THE_FOURTH 9   /* a burst behind four planned ones */
#define LINGBARROW_NAME_SILENT 10            /* a state that sends nothing: O1, O6, O7 */

/* Answers, tested in the order of the numbers: of all that is wrong the lowest number is answered. Only a state that is too short is
 * answered 3 before all else: there are no bytes to test. After 1, 2, 3 and 7 to 11 nothing is changed, except that the frame call, the
 * stretches and the names set their numbers to 0 where these have room. */
#define LINGBARROW_DONE 0
#define LINGBARROW_STATE_OUT_OF_RANGE 1 /* also: bytes that are no state's */
#define LINGBARROW_FRAME_LENGTH 2
#define LINGBARROW_BUFFER_TOO_SHORT 3
#define LINGBARROW_HLEND_UNREADABLE 4   /* a frame time passes */
#define LINGBARROW_HEADER_TOO_LONG 5    /* a frame time passes */
#define LINGBARROW_DELINEATION_LOST 6   /* the frame is otherwise done */
#define LINGBARROW_PORT_OUT_OF_RANGE 7
#define LINGBARROW_PORT_HELD_OR_NOT 8
#define LINGBARROW_SLOTS_TAKEN 9
#define LINGBARROW_KEY_REFUSED 10
#define LINGBARROW_NOT_WRITTEN 11

/* The state is bytes, numbers with their most significant byte first; each state has exactly one form, and copying it is all
 * that saving it takes. Save and restore it with the port memory of the same station and moment: unfinished SDUs stand there. A
 * state holds secrets, the Registration ID and the key: who may read or save a state may read them.
 *
 * Its first byte is the version of this form. Bytes of another version, or of a library that had none, are no state's and answered 1:
 * lingbarrow_in_range says so of a state that was saved, before anything is done with it. */
#define LINGBARROW_STATE_VERSION 8

/* At most so many are held, and a state has room for as many: */
#define LINGBARROW_ADDED_ALLOCS 16 /* added Alloc-IDs */
#define LINGBARROW_MOST_OWED 8     /* answers owed */
#define LINGBARROW_ADDED_PORTS 16  /* added ports */
#define LINGBARROW_SLOTS 17        /* slots of port memory: of the management port, and of each added port */

/* Where each field stands: where the one before it does, plus that one's bytes. */
#define LINGBARROW_AT_VERSION 0                                                             /* 1: LINGBARROW_STATE_VERSION */
#define LINGBARROW_AT_STATE (LINGBARROW_AT_VERSION + 1)                                     /* 1: LINGBARROW_O1 to LINGBARROW_O7 */
#define LINGBARROW_AT_TIME (LINGBARROW_AT_STATE + 1)                                        /* 4: frame times left of TO1 in O4, of TO2 in O6 */
#define LINGBARROW_AT_SERIAL (LINGBARROW_AT_TIME + 4)                                       /* 8 */
#define LINGBARROW_AT_REGISTRATION (LINGBARROW_AT_SERIAL + LINGBARROW_SERIAL_BYTES)         /* 36: secret */
#define LINGBARROW_AT_ONU_ID (LINGBARROW_AT_REGISTRATION + LINGBARROW_REGISTRATION_BYTES)   /* 2: 1023 while none is held */
#define LINGBARROW_AT_ALLOC_COUNT (LINGBARROW_AT_ONU_ID + 2)                                /* 1: how many are held */
#define LINGBARROW_AT_ALLOC_IDS (LINGBARROW_AT_ALLOC_COUNT + 1)                             /* 2 each; past the count they mean nothing */
#define LINGBARROW_AT_DELAY (LINGBARROW_AT_ALLOC_IDS + 2 * LINGBARROW_ADDED_ALLOCS)         /* 4: equalization delay in bit times, see the frame call */
#define LINGBARROW_AT_KEY_HELD (LINGBARROW_AT_DELAY + 4)                                    /* 1: 1 while a key is held, else 0 */
#define LINGBARROW_AT_KEY (LINGBARROW_AT_KEY_HELD + 1)                                      /* 16: secret */
#define LINGBARROW_AT_OWED_COUNT (LINGBARROW_AT_KEY + LINGBARROW_KEY_BYTES)                 /* 1: how many are owed */
#define LINGBARROW_AT_OWED (LINGBARROW_AT_OWED_COUNT + 1)                                   /* 2 each, the oldest first: 0 for a Registration, else completion code + 1; SeqNo */
#define LINGBARROW_AT_PORT_IDS (LINGBARROW_AT_OWED + 2 * LINGBARROW_MOST_OWED)              /* 2 each, 0 where the slot is empty */
#define LINGBARROW_AT_PARTIALS (LINGBARROW_AT_PORT_IDS + 2 * LINGBARROW_ADDED_PORTS)        /* 2 each: bytes of the slot's unfinished SDU */
#define LINGBARROW_AT_WAITING (LINGBARROW_AT_PARTIALS + 2 * LINGBARROW_SLOTS)               /* 1 each: 1 while the slot's port waits, else 0 */
#define LINGBARROW_AT_CARRIED (LINGBARROW_AT_WAITING + LINGBARROW_SLOTS)                    /* 2: words that the last burst takes of the next frame */

/* Bytes of stack that a call takes at most, its arguments and return address included, as measured on this build by tests/stack,
 * which fails if a call takes more. What the caller's own frames, a signal handler or an interrupt need comes on top. */
#define LINGBARROW_STACK_POWER_ON 600
#define LINGBARROW_STACK_IN_RANGE 536
#define LINGBARROW_STACK_FRAME 3368
#define LINGBARROW_STACK_LOST 1112
#define LINGBARROW_STACK_ADD_PORT 1432
#define LINGBARROW_STACK_REMOVE_PORT 1448
#define LINGBARROW_STACK_GIVE_KEY 1256
#define LINGBARROW_STACK_STRETCH 632
#define LINGBARROW_STACK_STRETCHES 888
#define LINGBARROW_STACK_WHY_DARK 984
#define LINGBARROW_STACK_WRITE_HLEND 24
#define LINGBARROW_STACK_WRITE_ALLOCATION 80
#define LINGBARROW_STACK_WRITE_XGEM_FRAME 88

/* A station in O1 with nothing held. 0, or 3 and nothing is changed. The port memory may hold anything. */
uint8_t lingbarrow_power_on(uint8_t *state, size_t state_length, const uint8_t *serial, size_t serial_length,
                            const uint8_t *registration, size_t registration_length);

/* Whether these bytes are a state in range, as one that was saved and is to be restored must be: 0. 1 for bytes that are no state's of
 * this version and for a state out of range, to which every other call on a state answers 1 too; 3 for fewer than LINGBARROW_STATE_BYTES. */
uint8_t lingbarrow_in_range(const uint8_t *state, size_t state_length);

/* Where SDU number k (from 0) of a frame's deliveries stands unfragmented in the frame: `place` gets offset and length, both 0
 * where it does not. 0 to 6; 3 is about `state` and `place`.
 *
 * FIRST THE STRETCH, THEN THE FRAME CALL: the state is the one in which the frame arrives. With the state that lingbarrow_frame
 * left, the answer can be 0 and the place that of another SDU, or of the tail of a fragmented one: nothing tells the two apart. Ask
 * for all stretches of a frame before its lingbarrow_frame, or of a copy of the state that was taken before it. */
uint8_t lingbarrow_stretch(const uint8_t *state, size_t state_length, const uint8_t *frame, size_t frame_length, size_t k,
                           size_t *place, size_t place_length);

/* All stretches of a frame in one call: `places` gets offset and length of each delivery, one after the other, as lingbarrow_stretch
 * gives them for each k, and `counts` how many deliveries there are, those that stand in no piece included. 0 to 6; 3 is about
 * `state`, `places` and `counts`. After 1 to 5 `places` is as it was and the count 0; past what is written `places` is as it was.
 * BEFORE the frame call too. */
uint8_t lingbarrow_stretches(const uint8_t *state, size_t state_length, const uint8_t *frame, size_t frame_length,
                             size_t *places, size_t places_length, size_t *counts, size_t counts_length);

/* What became of each structure of the frame's map: `names` gets one LINGBARROW_NAME_.. for each, in map order, and `counts` how many
 * there are. 0 to 5; 3 is about `state`, a list of fewer than LINGBARROW_NAMES and `counts`. After 1 to 5 `names` is as it was and the
 * count 0; past what is written `names` is as it was. The structures named planned are those of the records that lingbarrow_frame
 * writes, in their order. BEFORE the frame call too: the frame's own messages count for nothing. */
uint8_t lingbarrow_why_dark(const uint8_t *state, size_t state_length, const uint8_t *frame, size_t frame_length, uint8_t *names,
                            size_t names_length, size_t *counts, size_t counts_length);

/* A frame has arrived, descrambled and error-corrected, and without PSBd: its first byte is HLend's. 0 to 6.
 *
 * The plan gets records of four numbers: Alloc-ID; flags; burst start; GrantSize. Burst start is the head's StartTime, on each
 * record of the burst: the word of 4 bytes in the upstream frame, 0 to 9719, where the burst's first byte stands (PSBu goes in front
 * of it). It is counted before any delay: the sender adds its response time and the equalization delay, and in O2-3 the random delay.
 *   - equalization delay, at LINGBARROW_AT_DELAY: what the head end gave by Ranging_Time, so that bursts of all terminals arrive in
 *     step. Bit times of 2.48832 Gbit/s.
 *   - `random_delay`: what the caller drew for a burst in O2-3, so that terminals not yet known do not collide. The same bit times. The
 *     engine only writes it into Serial_Number_ONU.
 * Replies are messages of 48 bytes, one for each planned burst with PLOAMu, in order. Deliveries are Port-ID (2 bytes), length (2),
 * bytes, one after another.
 * `counts` gets records, replies and bytes of deliveries: size_t, so that they index the buffers as they are, and apart from the
 * state, so that a saved state has no leftovers of a call. What lies past the counts is as it was. */
uint8_t lingbarrow_frame(uint8_t *state, size_t state_length, uint8_t *memory, size_t memory_length,
                         const uint8_t *frame, size_t frame_length, uint32_t random_delay,
                         uint16_t *plan, size_t plan_length, uint8_t *replies, size_t replies_length,
                         uint8_t *deliveries, size_t deliveries_length, size_t *counts, size_t counts_length);

/* A frame time in which the synchroniser reports LODS. 0, 1 or 3. */
uint8_t lingbarrow_lost(uint8_t *state, size_t state_length);

/* An XGEM port of 1,023 to 65,534. 0, 1, 3, 7, 8; adding also 9. This is the exported form, by number; called by its name it takes a
 * lingbarrow_port_id: see the end of this file. */
uint8_t lingbarrow_add_port(uint8_t *state, size_t state_length, uint16_t port);
uint8_t lingbarrow_remove_port(uint8_t *state, size_t state_length, uint16_t port);

/* The PLOAM integrity key: taken in O4, O5 and O6. 0, 1, 3 or 10. */
uint8_t lingbarrow_give_key(uint8_t *state, size_t state_length, const uint8_t *key, size_t key_length);

/* The writers: 0, or 11 and nothing is changed. Every number has 32 bits, so that one too wide for its field is answered 11 and not cut
 * to it: 256 messages are too many, and not none. Bits of the fields: BWmap length 11, PLOAM count 8; Alloc-ID 14, StartTime 16,
 * GrantSize 16, burst profile 2; key index 2, Port-ID 16, options 18; marks 1. An XGEM frame is header, SDU and padding; its PLI, 14 bits,
 * is the SDU's length. Called by their names, the second and third take a lingbarrow_alloc_id and a lingbarrow_port_id. */
uint8_t lingbarrow_write_hlend(uint32_t bwmap, uint32_t ploam, uint8_t *target, size_t target_length);
uint8_t lingbarrow_write_allocation(uint32_t alloc, uint32_t dbru, uint32_t ploamu, uint32_t start, uint32_t grant,
                                    uint32_t fwi, uint32_t profile, uint8_t *target, size_t target_length);
uint8_t lingbarrow_write_xgem_frame(uint32_t key, uint32_t port, uint32_t options, uint32_t last, const uint8_t *sdu,
                                    size_t sdu_length, uint8_t *target, size_t target_length);

/* The three identifiers. They often carry one and the same number, so that a wrong kind would work until it does not. */
typedef struct {
    uint16_t number; /* at most 1022; 1023 while none is held */
} lingbarrow_onu_id;
typedef struct {
    uint16_t number; /* at most 16383 */
} lingbarrow_alloc_id;
typedef struct {
    uint16_t number;
} lingbarrow_port_id;

static inline lingbarrow_onu_id lingbarrow_onu_id_of(uint16_t number)
{
    lingbarrow_onu_id id;
    id.number = number;
    return id;
}

static inline lingbarrow_alloc_id lingbarrow_alloc_id_of(uint16_t number)
{
    lingbarrow_alloc_id id;
    id.number = number;
    return id;
}

static inline lingbarrow_port_id lingbarrow_port_id_of(uint16_t number)
{
    lingbarrow_port_id id;
    id.number = number;
    return id;
}

/* Where the standard equates them: the default Alloc-ID and the management port are the ONU-ID's number. */
static inline lingbarrow_alloc_id lingbarrow_default_alloc(lingbarrow_onu_id onu)
{
    return lingbarrow_alloc_id_of(onu.number);
}

static inline lingbarrow_port_id lingbarrow_management_port(lingbarrow_onu_id onu)
{
    return lingbarrow_port_id_of(onu.number);
}

/* Where identifiers come back: of a state, of a record (its four numbers), of a delivery (its head). */
static inline lingbarrow_onu_id lingbarrow_state_onu(const uint8_t *state)
{
    return lingbarrow_onu_id_of((uint16_t)(state[LINGBARROW_AT_ONU_ID] << 8 | state[LINGBARROW_AT_ONU_ID + 1]));
}

static inline lingbarrow_alloc_id lingbarrow_record_alloc(const uint16_t *record)
{
    return lingbarrow_alloc_id_of(record[LINGBARROW_RECORD_ALLOC]);
}

static inline lingbarrow_port_id lingbarrow_delivery_port(const uint8_t *delivery)
{
    return lingbarrow_port_id_of((uint16_t)(delivery[LINGBARROW_DELIVERY_PORT] << 8 | delivery[LINGBARROW_DELIVERY_PORT + 1]));
}

static inline size_t lingbarrow_delivery_length(const uint8_t *delivery)
{
    return (size_t)delivery[LINGBARROW_DELIVERY_LENGTH] << 8 | (size_t)delivery[LINGBARROW_DELIVERY_LENGTH + 1];
}

/* An answer in words, of static storage. */
static inline const char *lingbarrow_answer_text(uint8_t answer)
{
    switch (answer) {
    case LINGBARROW_DONE: return "done";
    case LINGBARROW_STATE_OUT_OF_RANGE: return "state out of range";
    case LINGBARROW_FRAME_LENGTH: return "frame length unfit";
    case LINGBARROW_BUFFER_TOO_SHORT: return "a buffer too short";
    case LINGBARROW_HLEND_UNREADABLE: return "HLend unreadable";
    case LINGBARROW_HEADER_TOO_LONG: return "header longer than frame";
    case LINGBARROW_DELINEATION_LOST: return "delineation lost";
    case LINGBARROW_PORT_OUT_OF_RANGE: return "port outside 1023 to 65534";
    case LINGBARROW_PORT_HELD_OR_NOT: return "added port held already, or removed port not held";
    case LINGBARROW_SLOTS_TAKEN: return "all 16 slots taken";
    case LINGBARROW_KEY_REFUSED: return "key given in O1, O2-3 or O7";
    case LINGBARROW_NOT_WRITTEN: return "a value too wide for its field, or a target too short";
    default: return "no answer of Lingbarrow";
    }
}

/* The forms to call where an identifier is an argument. Each is what its exported form is, the identifier unwrapped. */
static inline uint8_t lingbarrow_add_port_id(uint8_t *state, size_t state_length, lingbarrow_port_id port)
{
    return lingbarrow_add_port(state, state_length, port.number);
}

static inline uint8_t lingbarrow_remove_port_id(uint8_t *state, size_t state_length, lingbarrow_port_id port)
{
    return lingbarrow_remove_port(state, state_length, port.number);
}

static inline uint8_t lingbarrow_write_allocation_to(lingbarrow_alloc_id alloc, uint32_t dbru, uint32_t ploamu, uint32_t start,
                                                     uint32_t grant, uint32_t fwi, uint32_t profile, uint8_t *target,
                                                     size_t target_length)
{
    return lingbarrow_write_allocation(alloc.number, dbru, ploamu, start, grant, fwi, profile, target, target_length);
}

static inline uint8_t lingbarrow_write_xgem_frame_to(uint32_t key, lingbarrow_port_id port, uint32_t options, uint32_t last,
                                                     const uint8_t *sdu, size_t sdu_length, uint8_t *target, size_t target_length)
{
    return lingbarrow_write_xgem_frame(key, port.number, options, last, sdu, sdu_length, target, target_length);
}

/* By these a call by the exported name takes the identifier and not a bare number, so that a program has no untyped call by mistake.
 * Who means the number form says so, by the name in parentheses: (lingbarrow_add_port)(state, length, 2000). */
#define lingbarrow_add_port(...) lingbarrow_add_port_id(__VA_ARGS__)
#define lingbarrow_remove_port(...) lingbarrow_remove_port_id(__VA_ARGS__)
#define lingbarrow_write_allocation(...) lingbarrow_write_allocation_to(__VA_ARGS__)
#define lingbarrow_write_xgem_frame(...) lingbarrow_write_xgem_frame_to(__VA_ARGS__)

#ifdef __cplusplus
}
#endif

#endif
