#ifndef PAINTED_H
#define PAINTED_H

#include <stddef.h>
#include <stdint.h>

/* Where the measured call is called from: its caller's own __builtin_frame_address(0). Arguments and return address lie below. */
extern uint8_t *called_from;

/* Bytes of stack below called_from that `run` has written. Room that is kept and never written is seen only where something below it
 * is; and what is written is not seen where it is all paint, so that one run needs two paints. */
size_t painted(void (*run)(void), uint8_t paint);

#endif
