/* Times libfec on the codewords of coders/words.rt.txt and coders/marks.rt.txt: Reed-Solomon codewords over GF(64), and NIDs as
   Reed-Solomon codewords of 63 symbols with 22 check symbols, because libfec can decode them in that form. The lines are of the
   same form. */
#include "words.h"

#include <fec.h>
#include <stdio.h>
#include <string.h>

enum { ROUNDS = 400, WORDS = 64, LONGEST = 63 };

static unsigned char words[WORDS][LONGEST];
static int marked[WORDS][LONGEST];

/* Times `decode_rs_char` on the codewords of a row, with a number of erasures. */
static void time_row(void *code, const char *name, const char *label, int n, int marks) {
    uint64_t least = UINT64_MAX;
    unsigned found = 0;
    for (int round = 0; round < ROUNDS; round++) {
        uint64_t start = nanoseconds();
        for (int j = 0; j < WORDS; j++) {
            unsigned char word[LONGEST];
            int places[LONGEST];
            memcpy(word, words[j], (size_t)n);
            memcpy(places, marked[j], sizeof places);
            if (decode_rs_char(code, word, places, marks) >= 0) {
                found += word[0] + 1u;
            }
        }
        uint64_t time = nanoseconds() - start;
        if (time < least) {
            least = time;
        }
    }
    printf("%s|%s|%llu|%u\n", name, label, (unsigned long long)(least * 10 / WORDS), found);
}

/* Changes symbols of a codeword, the first of which are erased, to others; in an NID it inverts bits. */
static void damage(int j, int n, int marks, int wrong, int bits) {
    char changed[LONGEST] = {0};
    for (int count = 0; count < marks + wrong;) {
        int place = (int)((next() >> 20) % (unsigned)n);
        unsigned error = bits ? 1u : (unsigned)((next() >> 20) % 64u);
        if (changed[place] || error == 0) {
            continue;
        }
        changed[place] = 1;
        words[j][place] ^= (unsigned char)error;
        if (count < marks) {
            marked[j][count] = place;
        }
        count++;
    }
}

/* Times Reed-Solomon codewords. */
static void symbols(const char *name, int n, int k, const struct row *row) {
    void *code = init_rs_char(6, 0x43, 1, 1, n - k, 63 - n);
    for (int j = 0; j < WORDS; j++) {
        for (int i = 0; i < k; i++) {
            words[j][i] = (unsigned char)((next() >> 20) % 64u);
        }
        encode_rs_char(code, words[j], words[j] + k);
        damage(j, n, row->marks, row->wrong, 0);
    }
    time_row(code, name, row->label, n, row->marks);
    free_rs_char(code);
}

/* Times NIDs: multiples of the generator polynomial, a bit to a symbol. */
static void identifiers(const struct row *row) {
    void *code = init_rs_char(6, 0x43, 1, 1, 22, 0);
    for (int j = 0; j < WORDS; j++) {
        uint64_t word = 0;
        for (int shift = 0; shift < 16; shift++) {
            if (next() & 0x100) {
                word ^= 0xCD930BDD3B2Bu << shift;
            }
        }
        for (int i = 0; i < 63; i++) {
            words[j][i] = (unsigned char)(word >> (62 - i) & 1u);
        }
        damage(j, 63, 0, row->wrong, 1);
    }
    time_row(code, "network identifier", row->label, 63, 0);
    free_rs_char(code);
}

int main(void) {
    for (int i = 0; i < 9; i++) {
        symbols("Reed-Solomon (36,20)", 36, 20, &symbol_rows[0][i]);
        symbols("Reed-Solomon (24,12)", 24, 12, &symbol_rows[1][i]);
        symbols("Reed-Solomon (24,16)", 24, 16, &symbol_rows[2][i]);
    }
    for (int i = 0; i < 5; i++) {
        identifiers(&bit_rows[i]);
    }
    return 0;
}
