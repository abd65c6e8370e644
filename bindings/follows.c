/* Follows, relays and softens a recording by the calls of the library, as p25 does by its commands. The recording comes by a stream, in random chunks, and
   every buffer lies between two pages that nothing may touch.

   usage: follows follow                reads a recording, and writes the output of p25 follow
          follows relay NAC STATUS      and the output of p25 relay; NAC is hexadecimal
          follows soft                  reads levels, and writes the output of p25 soft
          follows edges                 each refusal, and the octets beside those written */
#define _DEFAULT_SOURCE
#include "guarded.h"
#include "p25.h"

enum { MOST = 1 << 22 };

static int failures;

static void check(bool holds, const char *name) {
    if (!holds && failures++ < 20) {
        fprintf(stderr, "failed: %s\n", name);
    }
}

/* The output: bits, the first highest. */
static uint8_t *sent;
static uint64_t sent_bits;

static void put_bits(const uint8_t *octets, uint64_t count) {
    for (uint64_t i = 0; i < count; i++, sent_bits++) {
        unsigned bit = octets[i / 8] >> (7 - i % 8) & 1u;
        sent[sent_bits / 8] |= (uint8_t)(bit << (7 - sent_bits % 8));
    }
}

static void put_octets(const uint8_t *octets, int32_t count) { put_bits(octets, 8 * (uint64_t)count); }

/* The work on each item, given its octets. */
struct work {
    char kind;
    uint16_t nac;
    uint8_t status;
    const int8_t *levels;
    p25_follower *follower;
};

static void follow_item(p25_follower *follower, const uint8_t *octets, size_t n, uint64_t begin, const p25_item *item) {
    struct buffer room = take(P25_FOLLOW_ROOM);
    static p25_follower before;
    before = *follower;
    int32_t count = p25_follower_take(follower, octets, n, begin, item, room.at, room.size);
    check(count >= 0 && is_whole(&room, 0, (size_t)count), "an item is followed");
    if (count > 0) {
        static p25_follower again;
        struct buffer little = take((size_t)count - 1);
        struct buffer exact = take((size_t)count);
        again = before;
        check(p25_follower_take(&again, octets, n, begin, item, little.at, little.size) == P25_NO_ROOM && is_whole(&little, 0, 0) &&
                  memcmp(&again, &before, sizeof again) == 0,
              "an octet less than is written");
        check(p25_follower_take(&again, octets, n, begin, item, exact.at, exact.size) == count && memcmp(exact.at, room.at, (size_t)count) == 0 &&
                  memcmp(&again, follower, sizeof again) == 0,
              "capacity for just the output");
        give_back(&little);
        give_back(&exact);
    }
    put_octets(room.at, count);
    give_back(&room);
}

static void relay_item(const struct work *work, const uint8_t *octets, size_t n, uint64_t begin, const p25_item *item) {
    size_t length = (item->bits + 7) / 8;
    struct buffer room = take(length);
    struct buffer little = take(length - 1);
    check(p25_relay_at(octets, n, begin, item->place, work->nac, work->status, little.at, little.size) == P25_NO_ROOM && is_whole(&little, 0, 0),
          "an octet less than an item has");
    check(p25_relay_at(octets, n, begin, item->place, work->nac, work->status, room.at, room.size) == (int32_t)length && is_whole(&room, 0, length),
          "an item is forwarded");
    put_bits(room.at, item->bits);
    give_back(&room);
    give_back(&little);
}

static void soften_item(const struct work *work, const uint8_t *octets, size_t n, uint64_t begin, const p25_item *item) {
    size_t length = (item->bits + 7) / 8;
    struct buffer room = take(length);
    if (item->kind == P25_BROKEN && item->duid == P25_PDU && item->place % 2 == 0) {
        struct buffer levels = take(item->bits / 2);
        memcpy(levels.at, work->levels + item->place / 2, levels.size);
        check(p25_soften((const int8_t *)levels.at, levels.size, room.at, length - 1) == P25_NO_ROOM && is_whole(&room, 0, 0), "an octet less than levels are");
        check(p25_soften((const int8_t *)levels.at, levels.size, room.at, room.size) == (int32_t)length && is_whole(&room, 0, length), "a unit is softened");
        give_back(&levels);
    } else {
        check(p25_item_octets(octets, n, begin, item, room.at, room.size) == (int32_t)length, "the octets of an item");
    }
    put_bits(room.at, item->bits);
    give_back(&room);
}

static void take_items(const struct work *work, p25_stream *stream) {
    p25_item item = {0};
    while (p25_stream_next(stream, &item, NULL, 0) == P25_ITEM) {
        if (work->kind == 'f') {
            follow_item(work->follower, stream->octets, stream->held, stream->begin, &item);
        } else if (work->kind == 'r') {
            relay_item(work, stream->octets, stream->held, stream->begin, &item);
        } else {
            soften_item(work, stream->octets, stream->held, stream->begin, &item);
        }
    }
}

/* Does the work on a recording, in random chunks; the input from levels is the dibits that they are nearest to. */
static void work_on(const struct work *work, const uint8_t *input, size_t count) {
    struct buffer place = take(sizeof(p25_stream));
    p25_stream *stream = (p25_stream *)(void *)place.at;
    p25_stream_begin(stream);
    for (size_t at = 0; at < count;) {
        size_t size = 1 + below(3000);
        size = size < count - at ? size : count - at;
        struct buffer piece = take(size);
        memcpy(piece.at, input + at, size);
        for (size_t i = 0; work->kind == 's' && i < size; i++) {
            piece.at[i] = p25_level_dibit((int8_t)piece.at[i]);
        }
        int32_t taken = work->kind == 's' ? p25_stream_push_dibits(stream, piece.at, size) : p25_stream_push(stream, piece.at, size);
        check(taken > 0, "a stream takes some");
        give_back(&piece);
        at += (size_t)taken;
        take_items(work, stream);
    }
    p25_stream_end(stream);
    take_items(work, stream);
    give_back(&place);
}

static void edges(void) {
    static p25_follower follower, before;
    p25_item item = {0, 144, 0, 0, 0x293, P25_TDU, P25_UNIT};
    uint8_t unit[P25_UNIT_ROOM] = {0};
    uint8_t room[P25_FOLLOW_ROOM] = {0};
    int32_t n = p25_build("tdu nac=293", 11, 1, unit, sizeof unit);
    check(n == 18, "a unit");
    p25_follower_begin(&follower);
    before = follower;
    for (int i = 0; i < 9; i++) {
        p25_item wrong = item;
        size_t given = 18;
        uint64_t begin = 0;
        follower = before;
        switch (i) {
            case 0: wrong.place = 8; break;
            case 1: wrong.kind = 0; break;
            case 2: wrong.kind = 6; break;
            case 3: wrong.nac = 4096; break;
            case 4: wrong.duid = 16; break;
            case 5: wrong.bits = 72; break;
            case 6: given = 17; break;
            case 7: begin = 4; break;
            default: wrong.kind = P25_GAP, wrong.bits = 4097; break;
        }
        check(p25_follower_take(&follower, unit, given, begin, &wrong, room, sizeof room) == P25_OUTSIDE, "an item that may not be taken");
        check(memcmp(&follower, &before, sizeof follower) == 0, "a follower that takes nothing stays");
    }
    check(p25_follower_take(&follower, unit, 18, 0, &item, room, sizeof room) == 18 && memcmp(room, unit, 18) == 0, "a unit comes as it is");
    check(p25_follower_finish(&follower, NULL, 0) == 0, "nothing is kept of it");
    /* A follower with random numbers: each call returns, and one that fits no follower does not change. */
    for (int i = 0; i < 200000; i++) {
        follower.reached = 0;
        follower.nac = (uint16_t)below(5000);
        follower.stretch = (uint16_t)below(7000);
        follower.duid = (uint8_t)below(18);
        follower.has_unit = (uint8_t)below(3);
        follower.waits = (uint8_t)below(9);
        follower.waiting = (uint8_t)below(256);
        for (int k = 0; k < 30; k++) {
            follower.octets[below(864)] = (uint8_t)below(256);
        }
        bool fits = follower.stretch < 6912 && (follower.has_unit != 0 || follower.stretch == 0) && follower.nac < 4096 && follower.duid < 16 && follower.waits < 8 &&
                    follower.waiting < 1 << follower.waits;
        before = follower;
        int32_t answer = below(2) == 0 ? p25_follower_take(&follower, unit, 18, 0, &item, room, sizeof room) : p25_follower_finish(&follower, room, sizeof room);
        check(fits ? answer >= 0 : answer == P25_OUTSIDE, "what a strange follower returns");
        check(fits || memcmp(&follower, &before, sizeof follower) == 0, "a strange follower stays");
    }
    check(p25_relay_at(unit, 18, 0, 0, 4096, 4, NULL, 0) == P25_WRONG_NAC, "a NAC of 13 bits");
    check(p25_relay_at(unit, 18, 0, 0, 4095, 4, NULL, 0) == P25_WRONG_STATUS, "a status symbol above 3");
    check(p25_relay_at(unit, 18, 0, 145, 0, 0, NULL, 0) == P25_OUTSIDE, "a position after the octets");
    check(p25_relay_at(unit, 18, 0, 144, 0, 0, NULL, 0) == 0, "the end of the octets");
    check(p25_relay_at(unit, 18, 0, 0, 0, 0, room, 17) == P25_NO_ROOM, "little capacity to forward");
    static int8_t levels[12961];
    check(p25_soften(levels, 12961, room, sizeof room) == P25_OUTSIDE, "more levels than a unit has");
    check(p25_soften(levels, 12960, room, sizeof room) == 3240, "as many as the longest has");
    check(p25_soften(NULL, 0, NULL, 0) == 0, "no levels");
    for (int i = 0; i < 4; i++) {
        check(p25_level_dibit(p25_dibit_level((uint8_t)i)) == i, "a dibit is that of its level");
    }
    check(strcmp(p25_answer_name(P25_NO_UNIT), "unit") == 0 && strcmp(p25_answer_name(P25_LINE_KEY), "key") == 0 && *p25_answer_name(1) == 0, "names of return values");
    printf("edges, %d failures\n", failures);
}

int main(int count, char **argument) {
    static p25_follower follower;
    struct work work = {count > 1 ? argument[1][0] : 'x', 0, 0, NULL, &follower};
    if (work.kind == 'e') {
        edges();
        return failures > 0;
    }
    uint8_t *input = calloc(MOST, 1);
    sent = calloc(MOST, 1);
    if (input == NULL || sent == NULL || strchr("frs", work.kind) == NULL || (work.kind == 'r' && count != 4)) {
        fputs("usage: follows follow|relay NAC STATUS|soft|edges\n", stderr);
        return 1;
    }
    size_t n = fread(input, 1, MOST - 4, stdin);
    if (work.kind == 'r') {
        work.nac = (uint16_t)strtoul(argument[2], NULL, 16);
        work.status = (uint8_t)strtoul(argument[3], NULL, 10);
    }
    while (work.kind == 's' && n % 4 != 0) {
        input[n++] = 32;
    }
    work.levels = (const int8_t *)input;
    p25_follower_begin(&follower);
    work_on(&work, input, n);
    if (work.kind == 'f') {
        struct buffer room = take(864);
        int32_t left = p25_follower_finish(&follower, room.at, room.size);
        check(left >= 0 && is_whole(&room, 0, (size_t)left), "what is left at the end");
        put_octets(room.at, left);
        give_back(&room);
    }
    check(sent_bits == (work.kind == 's' ? 2 : 8) * (uint64_t)n, "as many bits come out as went in");
    fwrite(sent, 1, (size_t)(sent_bits / 8), stdout);
    free(input);
    free(sent);
    return failures > 0;
}
