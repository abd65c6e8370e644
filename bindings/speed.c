/* Times the calls on codewords, blocks and checks, and p25_next_item on a recording from a file, for bindings/speed.

   usage: speed                prints a line NAME|CASE|TENTHS OF A NANOSECOND|SUM for each call, as bench/measures/libfec.c does
          speed FILE           prints the user seconds that the items of the file take, how many there are, and the seconds of
                               their numbers alone, by p25_items and by a stream

   The codewords are 64 of random information, with random wrong letters at random positions; the least time of 400 rounds counts. */
#include "../bench/measures/words.h"
#include "p25.h"

#include <stdio.h>
#include <stdlib.h>
#include <string.h>
#include <time.h>

enum { ROUNDS = 400, WORDS = 64, LONGEST = 36, BLOCKS = 98 };

static unsigned below(unsigned limit) { return (unsigned)(next() >> 20) % limit; }

/* A Reed-Solomon code. */
struct code {
    const char *name;
    int n;
    int k;
    int32_t (*read)(uint8_t *);
    int32_t (*read_erased)(uint8_t *, const bool *);
    int32_t (*write)(uint8_t *);
};

static const struct code codes[3] = {
    {"Reed-Solomon (36,20)", 36, 20, p25_rs_36_20_read, p25_rs_36_20_read_erased, p25_rs_36_20_write},
    {"Reed-Solomon (24,12)", 24, 12, p25_rs_24_12_read, p25_rs_24_12_read_erased, p25_rs_24_12_write},
    {"Reed-Solomon (24,16)", 24, 16, p25_rs_24_16_read, p25_rs_24_16_read_erased, p25_rs_24_16_write}};

static uint8_t symbols[WORDS][LONGEST];
static bool erased[WORDS][LONGEST];

/* Makes a codeword, and changes a number of its symbols. */
static void make_word(const struct code *code, const struct row *row, int j) {
    memset(erased[j], 0, sizeof erased[j]);
    for (int i = 0; i < code->k; i++) {
        symbols[j][i] = (uint8_t)below(64);
    }
    code->write(symbols[j]);
    bool changed[LONGEST] = {false};
    for (int count = 0; count < row->marks + row->wrong;) {
        unsigned place = below((unsigned)code->n);
        unsigned error = below(64);
        if (changed[place] || error == 0) {
            continue;
        }
        changed[place] = true;
        erased[j][place] = count < row->marks;
        symbols[j][place] ^= (uint8_t)error;
        count++;
    }
}

static void time_symbols(const struct code *code, const struct row *row) {
    uint64_t least = UINT64_MAX;
    unsigned found = 0;
    for (int j = 0; j < WORDS; j++) {
        make_word(code, row, j);
    }
    for (int round = 0; round < ROUNDS; round++) {
        uint64_t start = nanoseconds();
        for (int j = 0; j < WORDS; j++) {
            uint8_t word[LONGEST];
            memcpy(word, symbols[j], (size_t)code->n);
            int32_t answer = row->marks > 0 ? code->read_erased(word, erased[j]) : code->read(word);
            found += answer >= 0 ? word[0] + 1u : 0;
        }
        uint64_t time = nanoseconds() - start;
        least = time < least ? time : least;
    }
    printf("%s|%s|%llu|%u\n", code->name, row->label, (unsigned long long)(least * 10 / WORDS), found);
}

static void time_identifiers(const struct row *row) {
    uint64_t words[WORDS];
    uint64_t least = UINT64_MAX;
    unsigned found = 0;
    for (int j = 0; j < WORDS; j++) {
        uint64_t changed = 0;
        words[j] = p25_nid_write((uint16_t)below(4096), (uint8_t)below(16));
        for (int count = 0; count < row->wrong;) {
            uint64_t bit = (uint64_t)1 << (1 + below(63));
            count += (changed & bit) == 0;
            changed |= bit;
        }
        words[j] ^= changed;
    }
    for (int round = 0; round < ROUNDS; round++) {
        uint64_t start = nanoseconds();
        for (int j = 0; j < WORDS; j++) {
            uint16_t nac = 0;
            uint8_t duid = 0;
            int32_t answer = p25_nid_read(words[j], &nac, &duid);
            found += answer >= 0 ? nac + 1u : 0;
        }
        uint64_t time = nanoseconds() - start;
        least = time < least ? time : least;
    }
    printf("network identifier|%s|%llu|%u\n", row->label, (unsigned long long)(least * 10 / WORDS), found);
}

static uint8_t octets[1 << 24];

/* Finds the items of octets by p25_items, a thousand a call, or by a stream, and returns the user seconds. */
static double time_numbers(size_t n, bool by_stream) {
    static p25_item items[1000];
    static p25_stream stream;
    clock_t start = clock();
    if (by_stream) {
        p25_stream_begin(&stream);
        for (size_t at = 0; at < n;) {
            at += (size_t)p25_stream_push(&stream, octets + at, n - at < 320 ? n - at : 320);
            while (p25_stream_next(&stream, items, NULL, 0) == P25_ITEM) {
            }
        }
    } else {
        int32_t told = 1;
        for (uint64_t from = 0; told > 0; from = items[told > 0 ? told - 1 : 0].place + items[told > 0 ? told - 1 : 0].bits) {
            told = p25_items(octets, n, 0, from, true, items, 1000);
        }
    }
    return (double)(clock() - start) / CLOCKS_PER_SEC;
}

/* Finds the items of a file, and prints the user seconds and their number. It also prints the seconds of their numbers alone, many at once, and by a stream
   that gets 320 octets at a time. */
static int time_items(const char *path) {
    static char text[P25_TEXT_ROOM];
    FILE *file = fopen(path, "rb");
    if (file == NULL) {
        perror(path);
        return 1;
    }
    size_t n = fread(octets, 1, sizeof octets, file);
    fclose(file);
    p25_item item = {0};
    unsigned long count = 0;
    clock_t start = clock();
    while (p25_next_item(octets, n, 0, item.place + item.bits, true, &item, text, sizeof text) == P25_ITEM) {
        count++;
    }
    double seconds = (double)(clock() - start) / CLOCKS_PER_SEC;
    printf("%.3f %lu %.3f %.3f\n", seconds, count, time_numbers(n, false), time_numbers(n, true));
    return 0;
}

int main(int count, char **words) {
    if (count > 1) {
        return time_items(words[1]);
    }
    for (int code = 0; code < 3; code++) {
        for (int i = 0; i < 9; i++) {
            time_symbols(&codes[code], &symbol_rows[code][i]);
        }
    }
    for (int i = 0; i < 5; i++) {
        time_identifiers(&bit_rows[i]);
    }
    return 0;
}
