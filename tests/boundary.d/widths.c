/* Each field of the writers, as its callers give it: the widest value that fits is written, and every wider one is answered 11 and leaves
 * the target as it was, also one of which a narrower type of C would leave a value that fits: 256 messages are not none. */
#include "lingbarrow.h"
#include <stdio.h>
#include <string.h>

enum { HLEND, ALLOCATION, XGEM_FRAME, NUMBERS = 7 };

static const struct {
    const char *name;
    unsigned writer, which, bits;
} fields[] = {
    {"BWmap length", HLEND, 0, 11},   {"PLOAM count", HLEND, 1, 8},     {"Alloc-ID", ALLOCATION, 0, 14}, {"DBRu", ALLOCATION, 1, 1},
    {"PLOAMu", ALLOCATION, 2, 1},     {"StartTime", ALLOCATION, 3, 16}, {"GrantSize", ALLOCATION, 4, 16}, {"FWI", ALLOCATION, 5, 1},
    {"burst profile", ALLOCATION, 6, 2}, {"key index", XGEM_FRAME, 0, 2}, {"Port-ID", XGEM_FRAME, 1, 16}, {"options", XGEM_FRAME, 2, 18},
    {"LF", XGEM_FRAME, 3, 1},
};

static const uint8_t sdu[] = {'S', 'D', 'U'};
static uint8_t target[16], untouched[sizeof target];
static unsigned tried;

static uint8_t written(unsigned writer, const uint32_t *n)
{
    memset(target, 0xee, sizeof target);
    tried++;
    switch (writer) {
    case HLEND: return lingbarrow_write_hlend(n[0], n[1], target, sizeof target);
    case ALLOCATION: return (lingbarrow_write_allocation)(n[0], n[1], n[2], n[3], n[4], n[5], n[6], target, sizeof target);
    default: return (lingbarrow_write_xgem_frame)(n[0], n[1], n[2], n[3], sdu, sizeof sdu, target, sizeof target);
    }
}

static int refused(uint8_t answer)
{
    return answer == LINGBARROW_NOT_WRITTEN && !memcmp(target, untouched, sizeof target);
}

static int wrong(const char *field, uint32_t number)
{
    printf("widths: %s %lu is not answered as it should be\n", field, (unsigned long)number);
    return 1;
}

int main(void)
{
    memset(untouched, 0xee, sizeof untouched);
    for (size_t i = 0; i < sizeof fields / sizeof fields[0]; i++) {
        uint32_t numbers[NUMBERS] = {0}, *number = &numbers[fields[i].which];

        *number = ((uint32_t)1 << fields[i].bits) - 1;
        if (written(fields[i].writer, numbers) != LINGBARROW_DONE || !memcmp(target, untouched, 4))
            return wrong(fields[i].name, *number);
        for (unsigned bit = fields[i].bits; bit < 32; bit++)
            for (uint32_t more = 0; more < 2; more++) {
                *number = ((uint32_t)1 << bit) + more;
                if (!refused(written(fields[i].writer, numbers)))
                    return wrong(fields[i].name, *number);
            }
        *number = UINT32_MAX;
        if (!refused(written(fields[i].writer, numbers)))
            return wrong(fields[i].name, *number);
    }

    /* and by identifiers, as the names are called */
    memset(target, 0xee, sizeof target);
    if (!refused(lingbarrow_write_allocation(lingbarrow_alloc_id_of(16384), 0, 0, 0, 0, 0, 0, target, sizeof target))
        || !refused(lingbarrow_write_allocation(lingbarrow_alloc_id_of(5), 0, 256, 0, 0, 0, 0, target, sizeof target))
        || !refused(lingbarrow_write_allocation(lingbarrow_alloc_id_of(5), 0, 0, 65536, 0, 0, 0, target, sizeof target))
        || !refused(lingbarrow_write_xgem_frame(256, lingbarrow_port_id_of(5), 0, 1, sdu, sizeof sdu, target, sizeof target))
        || !refused(lingbarrow_write_xgem_frame(0, lingbarrow_port_id_of(5), 0, 256, sdu, sizeof sdu, target, sizeof target)))
        return wrong("a call by identifier", 0);
    printf("%u\n", tried + 5);
    return 0;
}
