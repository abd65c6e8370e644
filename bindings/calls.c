/* Makes the calls of the library from C, one kind in a run, so that bindings/test can compare their results with the output of p25.

   usage: calls repair                 standard input is a recording; so it is of all but build, words and layout
          calls bridge NAC STATUS      NAC as three hexadecimal digits
          calls numbers                the numbers of each item
          calls prefixes               checks each beginning of the recording against the whole
          calls build STATUS           standard input is lines
          calls words                  standard input is lines CODE RECEIVED.., as in words.txt
          calls layout                 the size of an item, and the offsets of its members
          calls edges                  the octets beside those written, and each refusal */
#include "p25.h"

#include <stdio.h>
#include <stdlib.h>
#include <string.h>

enum { MOST = 1 << 25 };

static uint8_t octets[MOST];
static uint8_t into[MOST];
static size_t n;
static char text[P25_TEXT_ROOM];
static int failures;

/* Prints which check failed. */
static void check(bool holds, const char *name) {
    if (!holds) {
        printf("failed: %s\n", name);
        failures++;
    }
}

/* Returns the bit at a position. */
static unsigned bit(const uint8_t *from, uint64_t place) { return from[place / 8] >> (7 - place % 8) & 1u; }

/* Copies bits from one position to another. */
static void copy_bits(const uint8_t *from, uint64_t at, uint8_t *to, uint64_t place, uint64_t count) {
    for (uint64_t i = 0; i < count; i++) {
        unsigned shift = (unsigned)(7 - (place + i) % 8);
        uint8_t *octet = &to[(place + i) / 8];
        *octet = (uint8_t)((*octet & ~(1u << shift)) | bit(from, at + i) << shift);
    }
}

/* Returns the octets of an item; if it is a unit, its length fills octets. */
static const uint8_t *item_octets(const p25_item *item) {
    static uint8_t alone[P25_UNIT_ROOM];
    copy_bits(octets, item->place, alone, 0, item->bits);
    return alone;
}

/* Finds the next item of the whole recording. */
static bool next(uint64_t *from, p25_item *item) {
    if (p25_next_item(octets, n, 0, *from, true, item, text, sizeof text) != P25_ITEM) {
        return false;
    }
    *from = item->place + item->bits;
    return true;
}

static void repair(void) {
    uint8_t unit[P25_UNIT_ROOM];
    p25_item item;
    memcpy(into, octets, n);
    for (uint64_t from = 0; next(&from, &item);) {
        if (item.kind == P25_UNIT) {
            int32_t length = p25_repair(item_octets(&item), item.bits / 8, unit, sizeof unit);
            check(length == (int32_t)item.bits / 8, "the length of a unit that is repaired");
            copy_bits(unit, 0, into, item.place, item.bits);
        }
    }
    fwrite(into, 1, n, stdout);
}

static void bridge(uint16_t nac, uint8_t status) {
    uint8_t unit[P25_UNIT_ROOM];
    p25_item item;
    for (uint64_t from = 0; next(&from, &item);) {
        if (item.kind == P25_UNIT) {
            int32_t length = p25_bridge(item_octets(&item), item.bits / 8, nac, status, unit, sizeof unit);
            check(length == (int32_t)item.bits / 8, "the length of a unit that is bridged");
            fwrite(unit, 1, item.bits / 8, stdout);
        }
    }
}

static void numbers(void) {
    p25_item item;
    for (uint64_t from = 0; next(&from, &item);) {
        printf("%u %llu %u %u %u %u %u\n", item.kind, (unsigned long long)item.place, (unsigned)item.bits, (unsigned)item.fixes,
               item.nac, item.duid, (unsigned)item.text_length);
    }
}

/* Checks that a beginning of the recording decides items of the whole, and that they cover all its bits if it has ended. */
static void prefixes(void) {
    for (size_t there = 0; there <= n; there++) {
        uint64_t from = 0;
        uint64_t whole = 0;
        p25_item item;
        p25_item same;
        while (p25_next_item(octets, there, 0, from, false, &item, text, sizeof text) == P25_ITEM) {
            char kept[P25_TEXT_ROOM];
            memcpy(kept, text, sizeof text);
            check(next(&whole, &same) && strcmp(kept, text) == 0, "an item of a beginning is that of the whole");
            check(memcmp(&item, &same, sizeof item) == 0, "the numbers of an item of a beginning");
            from = item.place + item.bits;
        }
        while (p25_next_item(octets, there, 0, from, true, &item, text, sizeof text) == P25_ITEM) {
            check(item.place == from && item.bits > 0, "items lie end to end");
            from = item.place + item.bits;
        }
        check(from == 8 * (uint64_t)there, "items cover every bit of a beginning");
    }
}

/* Writes the units of lines, up to the first that is refused, and prints its fault. */
static void build(uint8_t status) {
    static const char *const faults[] = {"long", "form", "kind", "key", "value"};
    uint8_t unit[P25_UNIT_ROOM];
    size_t at = 0;
    for (unsigned line = 1; at < n; line++) {
        const uint8_t *end = memchr(octets + at, '\n', n - at);
        size_t length = end == NULL ? n - at : (size_t)(end - octets) - at;
        int32_t answer = p25_build((const char *)octets + at, length, status, unit, sizeof unit);
        if (answer < 0) {
            fprintf(stderr, "line %u: %s\n", line, answer <= P25_LINE_LONG ? faults[P25_LINE_LONG - answer] : "refused");
            exit(2);
        }
        fwrite(unit, 1, (size_t)answer, stdout);
        at += length + 1;
    }
}

static void layout(void) {
    printf("%zu %zu %zu %zu %zu %zu %zu %zu\n", sizeof(p25_item), offsetof(p25_item, place), offsetof(p25_item, bits),
           offsetof(p25_item, fixes), offsetof(p25_item, text_length), offsetof(p25_item, nac), offsetof(p25_item, duid),
           offsetof(p25_item, kind));
}

/* Returns whether each of these octets is the mark. */
static bool all_are(const void *from, size_t count, uint8_t mark) {
    const uint8_t *octet = from;
    while (count > 0 && *octet == mark) {
        octet++;
        count--;
    }
    return count == 0;
}

enum { MARK = 0xA5 };

/* Checks the octets that are written of an item, with enough capacity and without, and those that are not. */
static void item_edges(void) {
    struct {
        p25_item item;
        uint8_t after[64];
    } told;
    size_t length;
    memset(&told, MARK, sizeof told);
    memset(text, MARK, sizeof text);
    check(p25_next_item(octets, n, 0, 0, false, &told.item, text, 0) == P25_ITEM, "an item without capacity for its text");
    check(all_are(told.after, sizeof told.after, MARK), "nothing is written after an item");
    check(all_are(text, sizeof text, MARK), "no text is written without capacity");
    length = told.item.text_length;
    check(length > 0 && length < P25_TEXT_ROOM && told.item.place == 0 && told.item.kind == P25_UNIT, "the first item");
    check(p25_next_item(octets, n, 0, 0, false, &told.item, text, length) == P25_ITEM, "an item with capacity for its text alone");
    check(all_are(text, sizeof text, MARK), "no text is written without its zero");
    check(p25_next_item(octets, n, 0, 0, false, &told.item, text, length + 1) == P25_ITEM, "an item with capacity for its text and the zero");
    check(strlen(text) == length && all_are(text + length + 1, sizeof text - length - 1, MARK), "a text, a zero, and nothing after it");

    memset(&told, MARK, sizeof told);
    memset(text, MARK, sizeof text);
    check(p25_next_item(octets, n, 0, 8 * (uint64_t)n, true, &told.item, text, sizeof text) == P25_NONE, "no item at the end");
    check(p25_next_item(octets, 5, 0, 0, false, &told.item, text, sizeof text) == P25_NONE, "no item while octets are wanting");
    check(p25_next_item(octets, 0, 0, 0, true, &told.item, text, sizeof text) == P25_NONE, "no item of no octets");
    check(p25_next_item(octets, n, 4, 8, true, &told.item, text, sizeof text) == P25_OUTSIDE, "a beginning inside an octet");
    check(p25_next_item(octets, n, 16, 15, true, &told.item, text, sizeof text) == P25_OUTSIDE, "a position before the octets");
    check(p25_next_item(octets, n, 0, 8 * (uint64_t)n + 1, true, &told.item, text, sizeof text) == P25_OUTSIDE, "a position after the octets");
    check(p25_next_item(octets, n, (uint64_t)1 << 59, ((uint64_t)1 << 59) + 1, true, &told.item, text, sizeof text) == P25_OUTSIDE,
          "a position above 2^59");
    check(p25_next_item(octets, n, UINT64_MAX - 7, UINT64_MAX, true, &told.item, text, sizeof text) == P25_OUTSIDE, "the greatest position");
    check(all_are(&told, sizeof told, MARK) && all_are(text, sizeof text, MARK), "a call that returns no item writes nothing");

    check(p25_next_item(octets, n, 8000, 8000, true, &told.item, text, sizeof text) == P25_ITEM && told.item.place == 8000,
          "positions are those of the recording if octets were dropped");
    check(p25_next_item(octets, n, (uint64_t)1 << 59, (uint64_t)1 << 59, true, &told.item, text, sizeof text) == P25_ITEM &&
              told.item.place == (uint64_t)1 << 59,
          "the greatest position that is taken");
}

/* Checks the octets that are written of a unit, and the order of refusals. */
static void unit_edges(void) {
    static const char line[] = "tdu nac=293";
    size_t length = sizeof line - 1;
    uint8_t unit[64];
    uint8_t other[64];
    memset(unit, MARK, sizeof unit);
    check(p25_build(line, length, 4, unit, 0) == P25_WRONG_STATUS, "a status above 3");
    check(p25_build("tdu", 3, 4, unit, 0) == P25_WRONG_STATUS, "a status above 3 before a fault");
    check(p25_build("tdu", 3, 3, unit, 0) == P25_LINE_KEY, "a fault before too little capacity");
    check(p25_build("", 0, 0, unit, 64) == P25_LINE_FORM, "a line of no octets");
    check(p25_build(line, length, 1, unit, 17) == P25_NO_ROOM, "capacity for an octet less");
    check(all_are(unit, sizeof unit, MARK), "what builds no unit writes nothing");
    check(p25_build(line, length, 1, unit, 18) == 18, "capacity for the unit alone");
    check(unit[0] == 0x55 && unit[17] == 1 && all_are(unit + 18, sizeof unit - 18, MARK), "a unit, and nothing after it");

    memset(other, MARK, sizeof other);
    check(p25_repair(unit, 17, other, 64) == P25_NO_UNIT, "a unit that is cut off");
    check(p25_repair(unit, 0, other, 64) == P25_NO_UNIT, "no octets");
    check(p25_repair(unit + 1, 17, other, 0) == P25_NO_UNIT, "no unit before no capacity");
    check(p25_repair(unit, 18, other, 17) == P25_NO_ROOM, "capacity for an octet less than the repaired unit");
    check(p25_bridge(unit, 17, 4096, 4, other, 0) == P25_WRONG_NAC, "an access code above 4095 before all else");
    check(p25_bridge(unit, 17, 4095, 4, other, 0) == P25_WRONG_STATUS, "a status above 3 before no unit");
    check(p25_bridge(unit, 17, 4095, 3, other, 0) == P25_NO_UNIT, "no unit before no capacity, bridged");
    check(p25_bridge(unit, 18, 4095, 3, other, 17) == P25_NO_ROOM, "capacity for an octet less than the bridged unit");
    check(all_are(other, sizeof other, MARK), "what repairs or bridges no unit writes nothing");
    check(p25_repair(unit, 64, other, 18) == 18 && memcmp(unit, other, 18) == 0, "a unit with octets after it");
    check(all_are(other + 18, sizeof other - 18, MARK), "nothing is written after a repaired unit");
    check(p25_bridge(unit, 64, 0x293, 1, other, 18) == 18 && memcmp(unit, other, 18) == 0, "a unit bridged to what it is");
    check(all_are(other + 18, sizeof other - 18, MARK), "nothing is written after a bridged unit");
}

/* Reads a word of a Reed-Solomon code, two octal digits a symbol, and prints its decoding. */
static void symbol_word(const char *received, size_t count, int32_t (*read)(uint8_t *), int32_t (*write)(uint8_t *), size_t k) {
    uint8_t word[36];
    uint8_t again[36] = {0};
    for (size_t i = 0; i < count; i++) {
        word[i] = (uint8_t)((received[2 * i] - '0') * 8 + received[2 * i + 1] - '0');
    }
    int32_t answer = read(word);
    if (answer == P25_BEYOND) {
        puts("Beyond");
        return;
    }
    memcpy(again, word, k);
    check(write(again) == 0 && memcmp(again, word, count) == 0, "a word that is read is written so");
    printf("Found ");
    for (size_t i = 0; i < count; i++) {
        printf("%02o", (unsigned)word[i]);
    }
    printf(" %d\n", (int)answer);
}

/* Reads a word of a code of bits, in hexadecimal, and prints its decoding. */
static void number_word(const char *received, int32_t (*read)(uint32_t *), uint32_t (*write)(uint32_t), unsigned checks) {
    uint32_t word = (uint32_t)strtoul(received, NULL, 16);
    int32_t answer = read(&word);
    if (answer == P25_BEYOND) {
        check(word == strtoul(received, NULL, 16), "an uncorrectable word stays");
        puts("Beyond");
        return;
    }
    check(write(word >> checks) == word, "a word that is read is written so");
    printf("Found %0*X %d\n", (int)strlen(received), (unsigned)word, (int)answer);
}

/* Reads the first 63 bits of an NID, and prints those of the NID to which they decode. */
static void identifier_word(const char *received) {
    uint16_t nac = 0xABCD;
    uint8_t duid = 0xEF;
    int32_t answer = p25_nid_read(strtoull(received, NULL, 16) << 1, &nac, &duid);
    if (answer == P25_BEYOND) {
        check(nac == 0xABCD && duid == 0xEF, "the values of an uncorrectable identifier stay");
        puts("Beyond");
        return;
    }
    printf("Found %016llX %d\n", (unsigned long long)(p25_nid_write(nac, duid) >> 1), (int)answer);
}

static void words(void) {
    char code[16];
    char received[80];
    while (scanf("%15s %79s", code, received) == 2) {
        printf("%s %s ", code, received);
        if (strcmp(code, "bch63") == 0) {
            identifier_word(received);
        } else if (strcmp(code, "golay24") == 0) {
            number_word(received, p25_golay24_read, p25_golay24_write, 12);
        } else if (strcmp(code, "golay18") == 0) {
            number_word(received, p25_golay18_read, p25_golay18_write, 12);
        } else if (strcmp(code, "hamming10") == 0) {
            number_word(received, p25_hamming10_read, p25_hamming10_write, 4);
        } else if (strcmp(code, "lsd16") == 0) {
            number_word(received, p25_lsd16_read, p25_lsd16_write, 8);
        } else if (strcmp(code, "rs36_20") == 0) {
            symbol_word(received, 36, p25_rs_36_20_read, p25_rs_36_20_write, 20);
        } else if (strcmp(code, "rs24_12") == 0) {
            symbol_word(received, 24, p25_rs_24_12_read, p25_rs_24_12_write, 12);
        } else if (strcmp(code, "rs24_16") == 0) {
            symbol_word(received, 24, p25_rs_24_16_read, p25_rs_24_16_write, 16);
        } else {
            puts("is no code");
        }
    }
}

/* Checks what the calls on codewords refuse, and which octets they leave as they were. */
static void word_edges(void) {
    uint8_t symbols[36] = {0};
    bool marks[36] = {false};
    uint8_t block[25];
    uint8_t carried[12] = {0};
    uint32_t word = UINT32_C(1) << 24;
    symbols[35] = 64;
    marks[35] = true;
    check(p25_rs_36_20_read(symbols) == P25_NO_LETTERS && symbols[35] == 64, "an octet above 63 is no symbol");
    check(p25_rs_36_20_read_erased(symbols, marks) == P25_NO_LETTERS && symbols[35] == 64, "an erased octet above 63 is no symbol");
    check(p25_rs_36_20_write(symbols) == 0 && symbols[35] == 0, "the check symbols are not examined");
    symbols[19] = 255;
    check(p25_rs_36_20_write(symbols) == P25_NO_LETTERS && symbols[19] == 255, "an octet above 63 is no information");
    symbols[19] = 0;
    memset(symbols, 1, 16);
    memset(marks, true, 16);
    marks[35] = false;
    check(p25_rs_36_20_read(symbols) == P25_BEYOND && symbols[15] == 1, "sixteen wrong symbols are uncorrectable");
    check(p25_rs_36_20_read_erased(symbols, marks) == 16 && symbols[0] == 0 && symbols[15] == 0, "sixteen erased symbols are read");
    check(p25_rs_36_20_read_erased(symbols, marks) == 0, "erased symbols that are right are not counted");
    check(p25_golay24_read(&word) == P25_NO_LETTERS && word == UINT32_C(1) << 24, "a number of 25 bits is no word of 24");
    check(p25_golay24_write(4096) == P25_NO_WORD && p25_golay18_write(64) == P25_NO_WORD && p25_hamming10_write(64) == P25_NO_WORD &&
              p25_lsd16_write(256) == P25_NO_WORD,
          "an information with a bit too many");
    check(p25_nid_write(4096, 0) == P25_NO_NID && p25_nid_write(0, 16) == P25_NO_NID, "no identifier");
    check(p25_crc9(128, symbols) == P25_NO_CRC9 && p25_crc9(127, symbols) < 512, "a serial number above 127");
    memset(block, 0xFF, sizeof block);
    p25_half_rate_write(carried, block);
    check(block[24] == 0x20, "the last four bits of a block are 0");
    block[24] |= 0x0F;
    check(p25_half_rate_read(block, carried) == 0, "the last four bits of a block are not looked at");
    block[3] ^= 0x81;
    check(p25_half_rate_read(block, carried) == 2 && all_are(carried, 12, 0), "two bit errors at half rate");
}

int main(int count, char **argument) {
    const char *name = count > 1 ? argument[1] : "";
    if (strcmp(name, "words") == 0) {
        words();
        return failures > 0;
    }
    if (strcmp(name, "layout") == 0) {
        layout();
        return 0;
    }
    n = fread(octets, 1, sizeof octets, stdin);
    if (strcmp(name, "repair") == 0) {
        repair();
    } else if (strcmp(name, "bridge") == 0 && count == 4) {
        bridge((uint16_t)strtoul(argument[2], NULL, 16), (uint8_t)atoi(argument[3]));
    } else if (strcmp(name, "numbers") == 0) {
        numbers();
    } else if (strcmp(name, "prefixes") == 0) {
        prefixes();
    } else if (strcmp(name, "build") == 0 && count == 3) {
        build((uint8_t)atoi(argument[2]));
    } else if (strcmp(name, "edges") == 0) {
        item_edges();
        unit_edges();
        word_edges();
    } else {
        fputs("calls: the head of calls.c has its words\n", stderr);
        return 2;
    }
    return failures > 0;
}
