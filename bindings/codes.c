/* Makes each call on codewords, blocks and checks once, with an example, and prints its results. codes.txt has the expected output. */
#include "p25.h"

#include <stdio.h>
#include <string.h>

/* Prints symbols as two octal digits each, and the return value of a call. */
static void print_symbols(const char *call, int32_t answer, const uint8_t *symbols, size_t count) {
    printf("%s = %d, ", call, (int)answer);
    for (size_t i = 0; i < count; i++) {
        printf("%02o", (unsigned)symbols[i]);
    }
    puts("");
}

/* Prints octets in hexadecimal, and the return value of a call. */
static void print_octets(const char *call, unsigned long answer, const uint8_t *octets, size_t count) {
    printf("%s = %lu, ", call, answer);
    for (size_t i = 0; i < count; i++) {
        printf("%02X", (unsigned)octets[i]);
    }
    puts("");
}

/* Makes the calls on a Reed-Solomon code: k symbols of information 1, 2, 3 and so on, then as many wrong symbols as are corrected, then as many erased ones.
   */
#define SYMBOL_CODE(n, k)                                                              \
    static void symbol_code_##n##_##k(void) {                                          \
        uint8_t word[n] = {0};                                                         \
        bool erased[n] = {false};                                                      \
        for (int i = 0; i < (k); i++) {                                                \
            word[i] = (uint8_t)(i + 1);                                                \
        }                                                                              \
        int32_t answer = p25_rs_##n##_##k##_write(word);                               \
        print_symbols("p25_rs_" #n "_" #k "_write", answer, word, n);                  \
        for (int i = 0; i < ((n) - (k)) / 2; i++) {                                    \
            word[2 * i] ^= 63;                                                         \
        }                                                                              \
        answer = p25_rs_##n##_##k##_read(word);                                        \
        print_symbols("p25_rs_" #n "_" #k "_read", answer, word, n);                   \
        for (int i = 0; i < (n) - (k); i++) {                                          \
            word[i] = 0;                                                               \
            erased[i] = true;                                                          \
        }                                                                              \
        answer = p25_rs_##n##_##k##_read_erased(word, erased);                         \
        print_symbols("p25_rs_" #n "_" #k "_read_erased", answer, word, n);            \
    }

SYMBOL_CODE(36, 20)
SYMBOL_CODE(24, 12)
SYMBOL_CODE(24, 16)

/* Makes the calls on a code of bits: the codeword of an information, and that codeword with bit errors. */
static void number_code(const char *name, uint32_t (*write)(uint32_t), int32_t (*read)(uint32_t *), uint32_t info, uint32_t wrong) {
    uint32_t word = write(info);
    printf("p25_%s_write(%02X) = %04X\n", name, (unsigned)info, (unsigned)word);
    word ^= wrong;
    printf("p25_%s_read(%04X) = ", name, (unsigned)word);
    int32_t answer = read(&word);
    printf("%d, %04X\n", (int)answer, (unsigned)word);
}

static void identifier(void) {
    uint16_t nac = 0;
    uint8_t duid = 0;
    uint64_t bits = p25_nid_write(0x293, 5);
    printf("p25_nid_write(293, 5) = %016llX\n", (unsigned long long)bits);
    bits ^= 0x7FF0;
    int32_t answer = p25_nid_read(bits, &nac, &duid);
    printf("p25_nid_read(%016llX) = %d, %03X, %X\n", (unsigned long long)bits, (int)answer, (unsigned)nac, (unsigned)duid);
}

/* The octets of a block at three-quarter rate; the first twelve are one at half rate. */
static const uint8_t carried[18] = {0x56, 0xC0, 0x00, 0x12, 0x34, 0x56, 0x81, 0x00, 0x08, 0x9A, 0xBC, 0xDE, 0xF0, 0x0F, 0x1E, 0x2D, 0x3C, 0x4B};

/* Writes the nominal levels of the bits of a block. */
static void levels_of(const uint8_t *bits, int8_t *levels) {
    static const int8_t level[4] = {32, 96, -32, -96};
    for (int i = 0; i < 98; i++) {
        levels[i] = level[bits[i / 4] >> (6 - 2 * (i % 4)) & 3];
    }
}

static void blocks(void) {
    uint8_t bits[25];
    uint8_t octets[18];
    int8_t levels[98];
    p25_half_rate_write(carried, bits);
    print_octets("p25_half_rate_write", 0, bits, 25);
    levels_of(bits, levels);
    levels[0] = -90; /* 6 off */
    print_octets("p25_half_rate_read_levels", p25_half_rate_read_levels(levels, octets), octets, 12);
    bits[0] ^= 0x81;
    print_octets("p25_half_rate_read", p25_half_rate_read(bits, octets), octets, 12);

    p25_three_quarter_rate_write(carried, bits);
    print_octets("p25_three_quarter_rate_write", 0, bits, 25);
    levels_of(bits, levels);
    levels[0] = -90; /* 6 off */
    print_octets("p25_three_quarter_rate_read_levels", p25_three_quarter_rate_read_levels(levels, octets), octets, 18);
    bits[0] ^= 1;
    print_octets("p25_three_quarter_rate_read", p25_three_quarter_rate_read(bits, octets), octets, 18);
}

int main(void) {
    static const uint8_t zeros[16] = {0};
    symbol_code_36_20();
    symbol_code_24_12();
    symbol_code_24_16();
    number_code("golay24", p25_golay24_write, p25_golay24_read, 0x800, 0xE00000);
    number_code("golay18", p25_golay18_write, p25_golay18_read, 0x20, 0x7);
    number_code("hamming10", p25_hamming10_write, p25_hamming10_read, 0x20, 0x1);
    number_code("lsd16", p25_lsd16_write, p25_lsd16_read, 0x80, 0x8001);
    identifier();
    blocks();
    printf("p25_crc9(0, sixteen octets 0) = %03X\n", (unsigned)p25_crc9(0, zeros));
    printf("p25_crc16(123456789) = %04X\n", (unsigned)p25_crc16((const uint8_t *)"123456789", 9));
    printf("p25_crc32(123456789) = %08lX\n", (unsigned long)p25_crc32((const uint8_t *)"123456789", 9));
    return 0;
}
