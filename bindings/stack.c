/* Measures how much stack the calls take: each runs in a thread whose stack is filled with a pattern, and the rest of the pattern is counted.

   usage: stack FILE           FILE is a recording; prints the octets of stack for its items and the other calls; the thread
                               itself takes some of each */
#include "p25.h"

#include <pthread.h>
#include <stdio.h>
#include <stdlib.h>
#include <string.h>

enum { SIZE = 1 << 20, PAINT = 0x5A, MOST = 1 << 24 };

static uint8_t octets[MOST];
static size_t n;
static char text[P25_TEXT_ROOM];
static uint8_t unit[P25_UNIT_ROOM];
static p25_item item;

static void *nothing(void *unused) { return unused; }

static void *items(void *unused) {
    memset(&item, 0, sizeof item);
    while (p25_next_item(octets, n, 0, item.place + item.bits, true, &item, text, sizeof text) == P25_ITEM) {
    }
    return unused;
}

/* Repairs the units that begin with an octet. */
static void *repairs(void *unused) {
    for (size_t at = 0; at < n; at++) {
        p25_repair(octets + at, n - at, unit, sizeof unit);
    }
    return unused;
}

static void *bridges(void *unused) {
    for (size_t at = 0; at < n; at++) {
        p25_bridge(octets + at, n - at, 0x293, 0, unit, sizeof unit);
    }
    return unused;
}

/* Takes the recording by a stream, of octets and of dibits, and each item by its position. */
static void *streams(void *unused) {
    static p25_stream stream;
    p25_stream_begin(&stream);
    for (size_t at = 0; at < n;) {
        int32_t pushed = p25_stream_push(&stream, octets + at, n - at);
        if (pushed < 0) {
            break;
        }
        at += (size_t)pushed;
        while (p25_stream_next(&stream, &item, text, sizeof text) == P25_ITEM) {
        }
    }
    p25_stream_push_dibits(&stream, octets, 3);
    p25_stream_end(&stream);
    while (p25_stream_next(&stream, &item, text, 0) == P25_ITEM) {
    }
    return unused;
}

static void *places(void *unused) {
    memset(&item, 0, sizeof item);
    while (p25_items(octets, n, 0, item.place + item.bits, true, &item, 1) == 1) {
        p25_item_octets(octets, n, 0, &item, unit, sizeof unit);
        p25_repair_at(octets, n, 0, item.place, unit, sizeof unit);
        p25_bridge_at(octets, n, 0, item.place, 0x293, 0, unit, sizeof unit);
    }
    return unused;
}

static void *builds(void *unused) {
    static char line[P25_TEXT_ROOM];
    size_t length = (size_t)sprintf(line, "confirmed nac=293 head=56c000000001ff000800 blocks=");
    for (int i = 0; i < 127; i++) {
        length += (size_t)sprintf(line + length, "%s%02x:%032d", i > 0 ? "," : "", (unsigned)i, i);
    }
    if (p25_build(line, length, 1, unit, sizeof unit) != 3240) {
        puts("no unit is built");
    }
    return unused;
}

static void *words(void *unused) {
    uint8_t symbols[36] = {1, 1, 1, 1, 1, 1, 1, 1};
    bool erased[36] = {true, true};
    uint8_t bits[25] = {0xFF, 1, 2, 3};
    uint8_t carried[18];
    int8_t levels[98] = {1, 2, 3};
    uint32_t word = 7;
    uint16_t nac;
    uint8_t duid;
    p25_rs_36_20_read_erased(symbols, erased);
    p25_rs_24_12_read(symbols);
    p25_rs_24_16_write(symbols);
    p25_golay24_read(&word);
    p25_nid_read(UINT64_C(0x293555EF2C654BC7), &nac, &duid);
    p25_three_quarter_rate_read(bits, carried);
    p25_three_quarter_rate_read_levels(levels, carried);
    p25_half_rate_read(bits, carried);
    p25_three_quarter_rate_write(carried, bits);
    return unused;
}

/* Takes the fields of each item, and the calls. */
static p25_fields fields;
static p25_packet packet;

static void *values(void *unused) {
    p25_caller caller;
    p25_call call;
    memset(&item, 0, sizeof item);
    p25_caller_begin(&caller);
    while (p25_next_item(octets, n, 0, item.place + item.bits, true, &item, text, 0) == P25_ITEM) {
        p25_unit_fields(octets, n, 0, item.place, &fields);
        p25_caller_take(&caller, &item, &fields, &call);
    }
    p25_caller_finish(&caller, &call);
    return unused;
}

static void *packets(void *unused) {
    for (size_t at = 0; at < n; at++) {
        p25_packet_read(octets, n, 0, 8 * at, &packet);
    }
    return unused;
}

/* Builds the longest packet, and each voice unit. */
static void *values_built(void *unused) {
    packet.head[0] = P25_CONFIRMED;
    packet.head[6] = 127;
    memset(packet.good, 1, sizeof packet.good);
    memset(packet.serials, 0, sizeof packet.serials);
    if (p25_build_packet(&packet, 1, unit, sizeof unit) != 3240) {
        puts("no packet is built");
    }
    for (fields.duid = 0; fields.duid < 16; fields.duid++) {
        p25_build_fields(&fields, 1, unit, sizeof unit);
    }
    return unused;
}

/* Follows and relays the recording, and softens the levels of the longest unit. */
static void *follows(void *unused) {
    static p25_follower follower;
    static uint8_t room[P25_FOLLOW_ROOM];
    static int8_t levels[12960];
    memset(&item, 0, sizeof item);
    p25_follower_begin(&follower);
    while (p25_next_item(octets, n, 0, item.place + item.bits, true, &item, text, 0) == P25_ITEM) {
        p25_follower_take(&follower, octets, n, 0, &item, room, sizeof room);
        p25_relay_at(octets, n, 0, item.place, 0x293, 0, unit, sizeof unit);
    }
    p25_follower_finish(&follower, room, sizeof room);
    p25_soften(levels, 12960, unit, sizeof unit);
    return unused;
}

/* Returns how many octets of a stack with the pattern a function took. */
static size_t taken(void *(*call)(void *)) {
    void *stack;
    pthread_attr_t how;
    pthread_t thread;
    size_t left = 0;
    if (posix_memalign(&stack, 4096, SIZE) != 0 || pthread_attr_init(&how) != 0 || pthread_attr_setstack(&how, stack, SIZE) != 0) {
        exit(1);
    }
    memset(stack, PAINT, SIZE);
    if (pthread_create(&thread, &how, call, NULL) != 0 || pthread_join(thread, NULL) != 0) {
        exit(1);
    }
    while (left < SIZE && ((uint8_t *)stack)[left] == PAINT) {
        left++;
    }
    free(stack);
    return SIZE - left;
}

int main(int count, char **argument) {
    FILE *file = count == 2 ? fopen(argument[1], "rb") : NULL;
    if (file == NULL) {
        fputs("usage: stack FILE\n", stderr);
        return 1;
    }
    n = fread(octets, 1, sizeof octets, file);
    fclose(file);
    printf("a thread %zu, items %zu, repaired %zu, bridged %zu, by a stream %zu, by place %zu, built %zu, words %zu, fields and calls %zu, "
           "packets %zu, built of values %zu, followed %zu\n",
           taken(nothing), taken(items), taken(repairs), taken(bridges), taken(streams), taken(places), taken(builds), taken(words),
           taken(values), taken(packets), taken(values_built), taken(follows));
    return 0;
}
