#ifndef MIC_H
#define MIC_H

#include <stdint.h>

enum { DOWNSTREAM = 1, UPSTREAM = 2 };

/* The integrity field of a PLOAM message (clause 15.6.2): the first 8 octets of AES-CMAC over the direction code and octets 1 to 40. */
void mic(const uint8_t key[16], uint8_t direction, const uint8_t octets[40], uint8_t field[8]);

#endif
