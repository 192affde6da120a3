/* Marks a fault of a small circuit, and has the mark's certificate checked. */
#include "leverpeach.h"
#include <stdio.h>

static const uint8_t netlist[] = {
    6, 0, 6, 0,    /* 6 nodes, 6 pins; then for each node its kind, its first pin and its number of pins */
    0, 0, 0, 0, 0, /* node 0: an input */
    2, 0, 0, 1, 0, /* node 1: a flip-flop */
    2, 1, 0, 1, 0, /* node 2: a flip-flop */
    5, 2, 0, 2, 0, /* node 3: an AND */
    1, 4, 0, 1, 0, /* node 4: an output */
    1, 5, 0, 1, 0, /* node 5: an output */
    0, 0, 0, 0, 1, 0, 2, 0, 3, 0, 2, 0, /* the pins' sources: 0; 0; 1 and 2; 3; 2 */
};
enum { B = 1, F = 0, WINDOW = 6 * (B + F + 1) };

int main(void) {
    uint8_t first[WINDOW], second[WINDOW], certificate[25 + 14 * WINDOW];
    /* pin 1 of node 3 stuck at 1, with c up to B, and F frames behind the fault frame */
    uint64_t found = leverpeach_find(netlist, sizeof netlist, 3, 1, 1, B, F, first, sizeof first,
                                     second, sizeof second, certificate, sizeof certificate);
    unsigned c = (unsigned)(found >> 32) - 1, length = (unsigned)found;
    if (found >> 32 == 0) /* 0 is none, any other number a refusal */
        return 1;
    printf("found: c %u, %u bytes, %u steps\n", c, length, (length - 25) / 7);
    uint64_t checked = leverpeach_check(netlist, sizeof netlist, certificate, length,
                                        first, sizeof first, second, sizeof second);
    printf("%s %u\n", checked >> 32 ? "accepted: c" : "refused:", (unsigned)checked);
    return 0;
}
