/* Buffers between two pages that nothing may touch, and random numbers, for the programs that test the library. */
#ifndef P25_GUARDED_H
#define P25_GUARDED_H

#include <stdbool.h>
#include <stdint.h>
#include <stdio.h>
#include <stdlib.h>
#include <string.h>
#include <sys/mman.h>

enum { PAGE = 4096, MARK = 0xA5 };

/* Returns a random number; the numbers are the same in each run. */
static uint64_t state = 0x9E3779B97F4A7C15u;

static size_t below(size_t limit) {
    state ^= state << 13;
    state ^= state >> 7;
    state ^= state << 17;
    return (size_t)(state >> 11) % limit;
}

/* A buffer between two pages that nothing may touch. */
struct buffer {
    uint8_t *pages;
    size_t mapped;
    uint8_t *at;
    size_t size;
};

/* Returns a buffer of a size, whose first octet or whose last one is next to such a page. */
static struct buffer take(size_t size) {
    struct buffer made = {NULL, ((size + PAGE - 1) / PAGE + 2) * PAGE, NULL, size};
    made.pages = mmap(NULL, made.mapped, PROT_NONE, MAP_PRIVATE | MAP_ANONYMOUS, -1, 0);
    if (made.pages == MAP_FAILED || mprotect(made.pages + PAGE, made.mapped - 2 * PAGE, PROT_READ | PROT_WRITE) != 0) {
        perror("mmap");
        exit(2);
    }
    memset(made.pages + PAGE, MARK, made.mapped - 2 * PAGE);
    made.at = below(2) == 0 ? made.pages + PAGE : made.pages + made.mapped - PAGE - size;
    return made;
}

static void give_back(struct buffer *made) { munmap(made->pages, made->mapped); }

/* Returns whether each octet of a buffer outside a part of it has its first value. */
static bool is_whole(const struct buffer *made, size_t from, size_t count) {
    for (uint8_t *octet = made->pages + PAGE; octet < made->pages + made->mapped - PAGE; octet++) {
        if ((octet < made->at + from || octet >= made->at + from + count) && *octet != MARK) {
            return false;
        }
    }
    return true;
}

#endif
