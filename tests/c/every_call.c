/* Calls every function of the header, for answers and for refusals, and looks at what comes back and at every lent
   byte. Prints a line for each call, and ends with 0 where all was as it should be, with 1 otherwise. */
#include "leverpeach.h"
#include <inttypes.h>
#include <stdarg.h>
#include <stdio.h>
#include <string.h>

enum { NODES = 6, B = 1, F = 0, WINDOW = NODES * (B + F + 1), ROOM = 25 + 14 * WINDOW };

static const uint64_t LARGE = (uint64_t)1 << 32; /* answers from here on are no refusals */

/* the circuit of examples/mark.c, which says what its bytes mean */
static const uint8_t netlist[] = {
    6, 0, 6, 0, 0, 0, 0, 0, 0, 2, 0, 0, 1, 0, 2, 1, 0, 1, 0, 5, 2, 0, 2,
    0, 1, 4, 0, 1, 0, 1, 5, 0, 1, 0, 0, 0, 0, 0, 1, 0, 2, 0, 3, 0, 2, 0,
};

/* the certificate for pin 1 of node 3 stuck at 1, with c 1 and F 0: its head, and five steps in each branch */
static const uint8_t mark[] = {
    3, 0, 1, 1, 1, 0, 0, 0, 0, 25, 0, 0, 0, 35, 0, 0, 0, 60, 0, 0, 0, 35, 0, 0, 0,
    1, 0, 1, 0, 1, 0, 1, 2, 0, 1, 0, 2, 0, 1, 3, 0, 1, 0, 3, 0, 1, 4, 0, 1, 0, 4, 0, 1, 5, 0, 1, 0, 5, 0, 1,
    1, 0, 1, 1, 1, 0, 1, 2, 0, 1, 1, 2, 0, 1, 3, 0, 1, 1, 3, 0, 1, 4, 0, 1, 1, 4, 0, 1, 5, 0, 1, 1, 5, 0, 1,
};

/* Each slice has bytes behind those that a call is told of, so that a write past its end shows. */
struct slices {
    uint8_t first[WINDOW + 16], second[WINDOW + 16], certificate[ROOM + 16];
};

/* what calls are lent, and what it should be after a call */
static struct slices lent, expected;

static int all_right = 1;

/* Lends all slices anew: at the start of the first are an input of 1 and latched values 0 and 1, and else no values. */
static void lend(void) {
    static const uint8_t given[] = {1, 0, 1};
    memset(&lent, 170, sizeof lent);
    memcpy(lent.first, given, sizeof given);
    expected = lent;
}

static void expect_zeros(size_t length) {
    memset(expected.first, 0, length);
    memset(expected.second, 0, length);
}

/* Prints the line of a call, remembers where answer or bytes were wrong, and makes ready for the next call. */
static void tell(int answer_right, const char *format, ...) {
    int bytes_right = memcmp(&lent, &expected, sizeof lent) == 0;
    va_list values;
    va_start(values, format);
    vprintf(format, values);
    va_end(values);
    printf("%s%s\n", answer_right ? "" : ", which is WRONG", bytes_right ? "" : ", and a lent byte is WRONG");
    all_right = all_right && answer_right && bytes_right;
    lend();
}

/* A call that should be refused with this number. */
static void refused(const char *call, uint64_t answer, uint64_t number) {
    tell(answer == number, "%s: refused %" PRIu64, call, answer);
}

static void call_read(void) {
    uint64_t answer = leverpeach_read(netlist, sizeof netlist);
    unsigned counts = (unsigned)(answer % LARGE);
    tell(answer == LARGE + 65536 * NODES + 6, "leverpeach_read: sound, %u nodes, %u pins", counts / 65536,
         counts % 65536);
    refused("leverpeach_read, a byte short", leverpeach_read(netlist, sizeof netlist - 1), 3);
    refused("leverpeach_read, empty netlist", leverpeach_read(NULL, 0), 1);
}

/* The simulator for a good circuit, with slices of these lengths; NULL for one of length 0. */
static uint64_t simulate(size_t first_length, size_t second_length) {
    return leverpeach_simulate(netlist, sizeof netlist, 0, 0, 0, 0, first_length ? lent.first : NULL, first_length,
                               second_length ? lent.second : NULL, second_length);
}

/* A clock step that should be done, and show these values. */
static void done(const char *call, uint64_t answer, const uint8_t *seen) {
    static const uint8_t latched[NODES] = {0, 1, 1, 0, 0, 0};
    const uint8_t *first = lent.first;
    memcpy(expected.first, seen, NODES);
    memcpy(expected.second, latched, NODES);
    tell(answer == 0, "%s: %s, seen %u %u %u %u %u %u", call, answer == 0 ? "done" : "refused", first[0], first[1],
         first[2], first[3], first[4], first[5]);
}

static void call_simulate(void) {
    static const uint8_t good[NODES] = {1, 0, 1, 0, 0, 1}, faulty[NODES] = {1, 0, 1, 1, 1, 1};
    done("leverpeach_simulate", simulate(NODES, NODES), good);
    done("leverpeach_simulate, pin 0 of node 3 stuck at 1",
         leverpeach_simulate(netlist, sizeof netlist, 1, 3, 0, 1, lent.first, NODES, lent.second, NODES), faulty);
    refused("leverpeach_simulate, no such node",
            leverpeach_simulate(netlist, sizeof netlist, 1, NODES, 0, 1, lent.first, NODES, lent.second, NODES), 9);
    lent.first[0] = expected.first[0] = 2;
    refused("leverpeach_simulate, an input of 2", simulate(NODES, NODES), 16);
    refused("leverpeach_simulate, empty netlist",
            leverpeach_simulate(NULL, 0, 0, 0, 0, 0, lent.first, NODES, lent.second, NODES), 1);
    refused("leverpeach_simulate, empty first", simulate(0, NODES), 16);
    refused("leverpeach_simulate, empty second", simulate(NODES, 0), 16);
    refused("leverpeach_simulate, both slices empty", simulate(0, 0), 16);
    refused("leverpeach_simulate, all empty", leverpeach_simulate(NULL, 0, 0, 0, 0, 0, NULL, 0, NULL, 0), 1);
}

/* The checker for these bytes, with slices of these lengths; NULL for one of length 0. */
static uint64_t check(const uint8_t *bytes, size_t length, size_t first_length, size_t second_length) {
    return leverpeach_check(netlist, sizeof netlist, bytes, length, first_length ? lent.first : NULL, first_length,
                            second_length ? lent.second : NULL, second_length);
}

static void call_check(void) {
    uint8_t altered[sizeof mark];
    uint64_t answer = check(mark, sizeof mark, WINDOW, WINDOW);
    expect_zeros(WINDOW);
    tell(answer == LARGE + 1, "leverpeach_check: accepted, c %u", (unsigned)(answer % LARGE));
    memcpy(altered, mark, sizeof mark);
    altered[28] = 1; /* the value of the first step */
    expect_zeros(WINDOW);
    refused("leverpeach_check, another value in a step", check(altered, sizeof altered, WINDOW, WINDOW), 14);
    refused("leverpeach_check, a byte short", check(mark, sizeof mark - 1, WINDOW, WINDOW), 8);
    refused("leverpeach_check, empty netlist",
            leverpeach_check(NULL, 0, mark, sizeof mark, lent.first, WINDOW, lent.second, WINDOW), 1);
    refused("leverpeach_check, empty certificate", check(NULL, 0, WINDOW, WINDOW), 8);
    refused("leverpeach_check, empty first", check(mark, sizeof mark, 0, WINDOW), 11);
    refused("leverpeach_check, empty second", check(mark, sizeof mark, WINDOW, 0), 11);
    refused("leverpeach_check, empty work slices", check(mark, sizeof mark, 0, 0), 11);
    refused("leverpeach_check, all empty but the netlist", check(NULL, 0, 0, 0), 8);
    refused("leverpeach_check, all empty", leverpeach_check(NULL, 0, NULL, 0, NULL, 0, NULL, 0), 1);
}

/* The finder for pin 1 of node 3 stuck at 1, with c up to b and slices of these lengths; NULL for one of length 0. */
static uint64_t find(uint8_t b, size_t first_length, size_t second_length, size_t certificate_length) {
    return leverpeach_find(netlist, sizeof netlist, 3, 1, 1, b, F, first_length ? lent.first : NULL, first_length,
                           second_length ? lent.second : NULL, second_length,
                           certificate_length ? lent.certificate : NULL, certificate_length);
}

static void call_find(void) {
    uint64_t answer = find(B, WINDOW, WINDOW, ROOM);
    expect_zeros(WINDOW);
    memcpy(expected.certificate, mark, sizeof mark);
    tell(answer == 2 * LARGE + sizeof mark, "leverpeach_find: found, c %u, %u bytes", (unsigned)(answer / LARGE - 1),
         (unsigned)(answer % LARGE));
    answer = find(0, WINDOW, WINDOW, ROOM);
    expect_zeros(NODES);
    tell(answer == 0, "leverpeach_find, c 0 only: %s", answer == 0 ? "none" : "found or refused");
    refused("leverpeach_find, certificate a byte short", find(B, WINDOW, WINDOW, ROOM - 1), 12);
    refused("leverpeach_find, empty netlist",
            leverpeach_find(NULL, 0, 3, 1, 1, B, F, lent.first, WINDOW, lent.second, WINDOW, lent.certificate, ROOM), 1);
    refused("leverpeach_find, empty first", find(B, 0, WINDOW, ROOM), 11);
    refused("leverpeach_find, empty second", find(B, WINDOW, 0, ROOM), 11);
    refused("leverpeach_find, empty work slices", find(B, 0, 0, ROOM), 11);
    refused("leverpeach_find, empty certificate", find(B, WINDOW, WINDOW, 0), 12);
    refused("leverpeach_find, all empty but the netlist", find(B, 0, 0, 0), 11);
    refused("leverpeach_find, all empty", leverpeach_find(NULL, 0, 3, 1, 1, B, F, NULL, 0, NULL, 0, NULL, 0), 1);
}

int main(void) {
    lend();
    call_read();
    call_simulate();
    call_check();
    call_find();
    return all_right ? 0 : 1;
}
