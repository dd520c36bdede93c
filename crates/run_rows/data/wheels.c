/* Slot tables as stimulators of wheels keep them: a byte for each slot of a cycle. Print one with
 *     wheelsync import examples/wheels.c four_minus_one
 */
#include <avr/pgmspace.h>

#define FOUR_SLOTS 8

extern const unsigned char four_minus_one[]; // declared here, listed below

/* Four teeth, the last one missing; bit 0 is the crank. */
const unsigned char four_minus_one[] PROGMEM = {
    1, 0, /* tooth 1 */
    1, 0, /* tooth 2 */
    1, 0, /* tooth 3 */
    0, 0, /* the missing one */
};

/* The same over two turns, with a cam (bit 1) that is high in one slot. */
const unsigned char four_minus_one_with_cam[16] PROGMEM = {
    1, 0, 1, 0, 1, 0, 0, 0,
    1, 0, 1, 2, 1, 0, 0, 0
};

const char *names[] = { "four_minus_one[] = { 9 };", "with cam" };
