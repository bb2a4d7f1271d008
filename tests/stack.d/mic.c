/* AES-128 (FIPS 197) and CMAC (RFC 4493) as their papers have them, for one length of text. The library's own cipher signs nothing
 * here: what is expected of it must not come from it. */
#include "mic.h"
#include <string.h>

static uint8_t twice(uint8_t a)
{
    return (uint8_t)(a << 1 ^ (a & 0x80 ? 0x1b : 0));
}

static uint8_t times(uint8_t a, uint8_t b)
{
    uint8_t sum = 0;

    for (; b; b >>= 1, a = twice(a))
        if (b & 1)
            sum ^= a;
    return sum;
}

static uint8_t turned(uint8_t a, unsigned bits)
{
    return (uint8_t)(a << bits | a >> (8 - bits));
}

static const uint8_t *s_box(void)
{
    static uint8_t box[256];

    if (!box[0])
        for (unsigned i = 0; i < 256; i++) {
            uint8_t inverse = 1;

            for (unsigned power = 0; power < 254; power++)
                inverse = times(inverse, (uint8_t)i);
            box[i] = inverse ^ turned(inverse, 1) ^ turned(inverse, 2) ^ turned(inverse, 3) ^ turned(inverse, 4) ^ 0x63;
        }
    return box;
}

static void add(uint8_t block[16], const uint8_t other[16])
{
    for (unsigned i = 0; i < 16; i++)
        block[i] ^= other[i];
}

static void mix_columns(uint8_t block[16])
{
    for (uint8_t *c = block; c < block + 16; c += 4) {
        uint8_t first = c[0], all = c[0] ^ c[1] ^ c[2] ^ c[3];

        for (unsigned i = 0; i < 4; i++)
            c[i] ^= all ^ twice(c[i] ^ (i < 3 ? c[i + 1] : first));
    }
}

static void next_round_key(uint8_t key[16], uint8_t constant)
{
    const uint8_t *box = s_box();

    for (unsigned i = 0; i < 4; i++)
        key[i] ^= box[key[12 + (i + 1) % 4]];
    key[0] ^= constant;
    for (unsigned i = 4; i < 16; i++)
        key[i] ^= key[i - 4];
}

static void encipher(const uint8_t key[16], uint8_t block[16])
{
    const uint8_t *box = s_box();
    uint8_t round_key[16], constant = 1;

    memcpy(round_key, key, 16);
    add(block, round_key);
    for (unsigned round = 1; round <= 10; round++) {
        uint8_t shifted[16];

        /* SubBytes and ShiftRows: row r of column c comes from column c + r, and 5 (r + 4 c) is r + 4 (c + r) modulo 16 */
        for (unsigned i = 0; i < 16; i++)
            shifted[i] = box[block[5 * i % 16]];
        memcpy(block, shifted, 16);
        if (round < 10)
            mix_columns(block);
        next_round_key(round_key, constant);
        constant = twice(constant);
        add(block, round_key);
    }
}

static void double_subkey(uint8_t k[16])
{
    uint8_t over = k[0] >> 7;

    for (unsigned i = 0; i < 16; i++)
        k[i] = (uint8_t)(k[i] << 1 | (i < 15 ? k[i + 1] >> 7 : 0));
    k[15] ^= over ? 0x87 : 0;
}

void mic(const uint8_t key[16], uint8_t direction, const uint8_t octets[40], uint8_t field[8])
{
    /* 41 octets are no whole number of blocks: the last is padded by 0x80 and zeros and takes the second subkey */
    uint8_t text[48] = {direction, [41] = 0x80}, subkey[16] = {0}, tag[16] = {0};

    memcpy(text + 1, octets, 40);
    encipher(key, subkey);
    double_subkey(subkey);
    double_subkey(subkey);
    add(text + 32, subkey);
    for (unsigned at = 0; at < 48; at += 16) {
        add(tag, text + at);
        encipher(key, tag);
    }
    memcpy(field, tag, 8);
}
