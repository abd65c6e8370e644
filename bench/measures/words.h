/* The parts that libfec.c and bindings/speed.c share: random numbers, the time, and the damage of the codewords that both time. */
#ifndef WORDS_H
#define WORDS_H

#include <stdint.h>
#include <time.h>

static uint64_t state = 0x9E3779B97F4A7C15u;

static uint64_t next(void) {
    state ^= state << 13;
    state ^= state >> 7;
    state ^= state << 17;
    return state;
}

static uint64_t nanoseconds(void) {
    struct timespec now;
    clock_gettime(CLOCK_MONOTONIC, &now);
    return (uint64_t)now.tv_sec * 1000000000u + (uint64_t)now.tv_nsec;
}

/* The number of erased symbols, of more wrong symbols, and the name of the case. */
struct row {
    int marks;
    int wrong;
    const char *label;
};

/* The cases of the codes (36,20), (24,12) and (24,16), and of NIDs. */
static const struct row symbol_rows[3][9] = {
    {{0, 0, "0"}, {0, 1, "1"}, {0, 4, "4"}, {0, 8, "8, the radius"}, {0, 9, "9, beyond"},
     {1, 0, "1 erased"}, {8, 0, "8 erased"}, {8, 4, "8 erased, 4 more"}, {16, 0, "16 erased"}},
    {{0, 0, "0"}, {0, 1, "1"}, {0, 3, "3"}, {0, 6, "6, the radius"}, {0, 7, "7, beyond"},
     {1, 0, "1 erased"}, {6, 0, "6 erased"}, {6, 3, "6 erased, 3 more"}, {12, 0, "12 erased"}},
    {{0, 0, "0"}, {0, 1, "1"}, {0, 2, "2"}, {0, 4, "4, the radius"}, {0, 5, "5, beyond"},
     {1, 0, "1 erased"}, {4, 0, "4 erased"}, {4, 2, "4 erased, 2 more"}, {8, 0, "8 erased"}}};

static const struct row bit_rows[5] = {
    {0, 0, "0"}, {0, 1, "1"}, {0, 3, "3"}, {0, 11, "11, the radius"}, {0, 12, "12, beyond"}};

#endif
