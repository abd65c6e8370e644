/* Prints the lines of `p25 show` for standard input: a line for each item of a recording, as soon as the octets read decide it.

   usage: show [N]        reads at most N octets at a time, 1 to 65536; 4096 if N is left out

   Octets that no item needs any more are dropped, so a recording may be of any length. */
#include "p25.h"

#include <stdio.h>
#include <stdlib.h>
#include <string.h>
#include <unistd.h>

enum { MOST = 65536 };

static uint8_t octets[P25_NEEDED + MOST];
static char text[P25_TEXT_ROOM];

int main(int count, char **words) {
    unsigned long piece = count > 1 ? strtoul(words[1], NULL, 10) : 4096;
    uint64_t begin = 0;
    uint64_t from = 0;
    size_t held = 0;
    bool ended = false;
    if (count > 2 || piece < 1 || piece > MOST) {
        fputs("usage: show [N]\n", stderr);
        return 1;
    }
    while (!ended) {
        p25_item item;
        size_t past;
        ssize_t got = read(STDIN_FILENO, octets + held, piece);
        if (got < 0) {
            perror("show");
            return 3;
        }
        ended = got == 0;
        held += (size_t)got;
        while (p25_next_item(octets, held, begin, from, ended, &item, text, sizeof text) == P25_ITEM) {
            puts(text);
            from = item.place + item.bits;
        }
        /* The octets before the next item are dropped. */
        past = (size_t)((from - begin) / 8);
        held -= past;
        begin += 8 * (uint64_t)past;
        memmove(octets, octets + past, held);
        if (fflush(stdout) != 0) {
            perror("show");
            return 4;
        }
    }
    return 0;
}
