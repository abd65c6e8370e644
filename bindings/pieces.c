/* Makes the calls that take items at any bit, many at once, or from a stream, on recordings, and compares their results with the output of p25. Every buffer
   lies between two pages that nothing may touch, flush with one of them.

   usage: pieces FILES          a line of FILES is the paths RECORDING SHOWN REPAIRED BRIDGED: the outputs of p25 show, p25 repair and
                                p25 bridge 123 2 for the recording
          pieces edges          each refusal, and the octets beside those written */
#define _DEFAULT_SOURCE
#include "guarded.h"
#include "p25.h"

enum { LONGEST = 9000 };

static int failures;
static const char *recording_name = "edges";

/* Prints which check failed, the first twenty times. */
static void check(bool holds, const char *name) {
    if (!holds && failures++ < 20) {
        printf("failed: %s: %s\n", recording_name, name);
    }
}

/* Returns a file in a buffer of its size that cannot be written. */
static struct buffer file_of(const char *path) {
    FILE *file = fopen(path, "rb");
    if (file == NULL) {
        perror(path);
        exit(2);
    }
    fseek(file, 0, SEEK_END);
    struct buffer made = take((size_t)ftell(file));
    rewind(file);
    if (fread(made.at, 1, made.size, file) != made.size) {
        exit(2);
    }
    fclose(file);
    mprotect(made.pages + PAGE, made.mapped - 2 * PAGE, PROT_READ);
    return made;
}

static unsigned bit(const uint8_t *from, uint64_t place) { return from[place / 8] >> (7 - place % 8) & 1u; }

static void put_bit(uint8_t *to, uint64_t place, unsigned value) {
    unsigned shift = (unsigned)(7 - place % 8);
    to[place / 8] = (uint8_t)((to[place / 8] & ~(1u << shift)) | value << shift);
}

/* The lines of a text, one after the other. */
struct lines {
    const char *at;
    const char *end;
};

/* Returns whether a text is the next line, and moves past it. */
static bool is_next(struct lines *lines, const char *text, size_t length) {
    const char *end = memchr(lines->at, '\n', (size_t)(lines->end - lines->at));
    bool same = end != NULL && (size_t)(end - lines->at) == length && memcmp(lines->at, text, length) == 0;
    lines->at = end == NULL ? lines->end : end + 1;
    return same;
}

/* Returns whether the numbers of two items are the same, except the length of the text. */
static bool are_same(const p25_item *a, const p25_item *b) {
    return a->place == b->place && a->bits == b->bits && a->fixes == b->fixes && a->nac == b->nac && a->duid == b->duid && a->kind == b->kind;
}

/* Compares each call that takes a stream and an item with the call that takes octets. */
static void by_stream_and_item(const p25_stream *stream, const p25_item *item) {
    static p25_fields one_fields, other_fields;
    static p25_packet one_packet, other_packet;
    static p25_follower one_follower, other_follower;
    static uint8_t one[P25_FOLLOW_ROOM], other[P25_FOLLOW_ROOM];
    const uint8_t *octets = stream->octets;
    size_t n = stream->held;
    uint64_t begin = stream->begin;
    for (int i = 0; i < 7; i++) {
        int32_t a = 0, b = 0;
        size_t room = below(8) == 0 ? below(20) : sizeof one;
        memset(one, MARK, sizeof one);
        memset(other, MARK, sizeof other);
        memset(&one_fields, MARK, sizeof one_fields);
        memset(&other_fields, MARK, sizeof other_fields);
        switch (i) {
            case 0: a = p25_stream_item_octets(stream, item, one, room), b = p25_item_octets(octets, n, begin, item, other, room); break;
            case 1: a = p25_stream_repair(stream, item, one, room), b = p25_repair_at(octets, n, begin, item->place, other, room); break;
            case 2: a = p25_stream_bridge(stream, item, 0x123, 2, one, room), b = p25_bridge_at(octets, n, begin, item->place, 0x123, 2, other, room); break;
            case 3: a = p25_stream_relay(stream, item, 0x123, 2, one, room), b = p25_relay_at(octets, n, begin, item->place, 0x123, 2, other, room); break;
            case 4: a = p25_stream_fields(stream, item, &one_fields), b = p25_unit_fields(octets, n, begin, item->place, &other_fields); break;
            case 5: a = p25_stream_packet(stream, item, &one_packet), b = p25_packet_read(octets, n, begin, item->place, &other_packet); break;
            case 6:
                p25_follower_begin_at(&one_follower, item->place);
                other_follower = one_follower;
                a = p25_stream_follow(stream, item, &one_follower, one, room);
                b = p25_follower_take(&other_follower, octets, n, begin, item, other, room);
                break;
            default: break;
        }
        check(a == b && memcmp(one, other, sizeof one) == 0 && memcmp(&one_fields, &other_fields, sizeof one_fields) == 0 &&
                  memcmp(&one_packet, &other_packet, sizeof one_packet) == 0 && memcmp(&one_follower, &other_follower, sizeof one_follower) == 0,
              "a call with a stream and an item returns the same as one with octets");
    }
}

/* Takes the items that a stream has, and compares their lines with those of the recording; leaves the text out if it is not needed. */
static void take_items(p25_stream *stream, const struct buffer *recording, struct lines *lines, bool with_text) {
    struct buffer told = take(sizeof(p25_item));
    struct buffer text = take(with_text ? P25_TEXT_ROOM : 0);
    p25_item *item = (p25_item *)(void *)told.at;
    for (;;) {
        uint64_t from = stream->from;
        int32_t answer = p25_stream_next(stream, item, (char *)text.at, text.size);
        if (answer != P25_ITEM) {
            check(answer == P25_NONE && stream->from == from, "no item, and the stream stays");
            break;
        }
        char line[P25_TEXT_ROOM];
        p25_item same;
        check(p25_next_item(recording->at, recording->size, 0, from, true, &same, line, sizeof line) == P25_ITEM && are_same(item, &same),
              "an item of a stream has the numbers of the recording's");
        check(item->text_length == (with_text ? same.text_length : 0), "the length of a text");
        check(!with_text || strcmp(line, (char *)text.at) == 0, "the text of an item of a stream");
        check(is_next(lines, line, same.text_length), "the next line of p25 show");
        check(stream->from == from + item->bits, "a stream continues after an item");
        by_stream_and_item(stream, item);
        uint8_t here[P25_UNIT_ROOM];
        uint8_t there[P25_UNIT_ROOM];
        int32_t count = p25_item_octets(stream->octets, stream->held, stream->begin, item, here, sizeof here);
        check(count == (int32_t)(item->bits + 7) / 8 && p25_item_octets(recording->at, recording->size, 0, item, there, sizeof there) == count &&
                  memcmp(here, there, (size_t)count) == 0,
              "the octets of an item lie in the stream");
    }
    check(is_whole(&told, 0, sizeof *item), "nothing is written beside an item");
    give_back(&told);
    give_back(&text);
}

/* Checks a recording by a stream, in random chunks. */
static void by_stream(const struct buffer *recording, struct lines lines, bool dibits, bool with_text, size_t longest) {
    struct buffer place = take(sizeof(p25_stream));
    p25_stream *stream = (p25_stream *)(void *)place.at;
    size_t unit = dibits ? 4 : 1;
    size_t count = unit * recording->size;
    p25_stream_begin(stream);
    for (size_t at = 0; at < count;) {
        size_t size = below(longest + 1);
        size = size < count - at ? size : count - at;
        struct buffer guarded = take(size);
        for (size_t i = 0; i < size; i++) {
            size_t k = at + i;
            guarded.at[i] = dibits ? (uint8_t)((recording->at[k / 4] >> (6 - 2 * (k % 4)) & 3u) + 4 * below(64)) : recording->at[k];
        }
        int32_t taken = dibits ? p25_stream_push_dibits(stream, guarded.at, size) : p25_stream_push(stream, guarded.at, size);
        check(taken >= 0 && (size_t)taken <= size && (taken > 0 || size == 0), "a stream takes some of what it is given");
        check(size > unit * 4927 || (size_t)taken == size, "there is capacity for 4,927 octets");
        give_back(&guarded);
        at += (size_t)taken;
        take_items(stream, recording, &lines, with_text);
    }
    p25_stream_end(stream);
    check(p25_stream_push(stream, recording->at, recording->size) == P25_ENDED, "a stream that has ended takes nothing");
    take_items(stream, recording, &lines, with_text);
    check(lines.at == lines.end && stream->from == 8 * (uint64_t)recording->size, "a stream has all items");
    check(is_whole(&place, 0, sizeof *stream), "nothing is written beside a stream");
    give_back(&place);
}

/* Checks a recording by many items at once, with random capacities. */
static void by_many(const struct buffer *recording, size_t longest) {
    uint64_t from = 0;
    int32_t told;
    do {
        size_t room = 1 + below(longest);
        struct buffer items = take(room * sizeof(p25_item));
        p25_item *item = (p25_item *)(void *)items.at;
        size_t past = (size_t)(from / 8);
        told = p25_items(recording->at + past, recording->size - past, 8 * (uint64_t)past, from, true, item, room);
        check(told >= 0 && (size_t)told <= room, "as many items as there is capacity for");
        for (int32_t i = 0; i < told; i++) {
            p25_item same;
            char line[P25_TEXT_ROOM];
            check(p25_next_item(recording->at, recording->size, 0, from, true, &same, line, sizeof line) == P25_ITEM && are_same(&item[i], &same) &&
                      item[i].text_length == 0,
                  "one of many items");
            from = item[i].place + item[i].bits;
        }
        check(is_whole(&items, 0, (size_t)told * sizeof *item), "nothing is written after the items");
        give_back(&items);
    } while (told > 0);
    check(from == 8 * (uint64_t)recording->size, "many at once are all items");
}

/* Checks the octets of each item, and each unit repaired and bridged at its position. */
static void by_place(const struct buffer *recording, const struct buffer *repaired, const struct buffer *bridged) {
    uint8_t *whole = malloc(recording->size + 1);
    size_t sent = 0;
    p25_item item = {0};
    memcpy(whole, recording->at, recording->size);
    while (p25_items(recording->at, recording->size, 0, item.place + item.bits, true, &item, 1) == 1) {
        size_t length = (item.bits + 7) / 8;
        size_t past = (size_t)(item.place / 8);
        const uint8_t *from = recording->at + past;
        size_t n = recording->size - past;
        struct buffer room = take(length);
        struct buffer little = take(length - 1);
        check(p25_item_octets(from, n, 8 * past, &item, little.at, little.size) == P25_NO_ROOM && is_whole(&little, 0, 0), "an octet less than an item has");
        check(p25_item_octets(from, n, 8 * past, &item, room.at, room.size) == (int32_t)length && is_whole(&room, 0, length), "the octets of an item");
        for (uint64_t i = 0; i < 8 * length; i++) {
            check(bit(room.at, i) == (i < item.bits ? bit(recording->at, item.place + i) : 0), "a bit of an item");
        }
        if (item.kind == P25_UNIT) {
            check(p25_repair_at(from, n, 8 * past, item.place, little.at, little.size) == P25_NO_ROOM && is_whole(&little, 0, 0), "little capacity to repair");
            check(p25_bridge_at(from, n, 8 * past, item.place, 0x123, 2, little.at, little.size) == P25_NO_ROOM && is_whole(&little, 0, 0), "little capacity to bridge");
            check(p25_repair_at(from, n, 8 * past, item.place, room.at, room.size) == (int32_t)length, "a unit repaired at its position");
            for (uint64_t i = 0; i < item.bits; i++) {
                put_bit(whole, item.place + i, bit(room.at, i));
            }
            check(p25_bridge_at(from, n, 8 * past, item.place, 0x123, 2, room.at, room.size) == (int32_t)length && sent + length <= bridged->size &&
                      memcmp(room.at, bridged->at + sent, length) == 0,
                  "a unit bridged at its position");
            sent += length;
        } else {
            check(p25_repair_at(from, n, 8 * past, item.place, little.at, 0) == P25_NO_UNIT, "no unit to repair");
            check(p25_bridge_at(from, n, 8 * past, item.place, 0x123, 2, little.at, 0) == P25_NO_UNIT, "no unit to bridge");
        }
        give_back(&room);
        give_back(&little);
    }
    check(repaired->size == recording->size && memcmp(whole, repaired->at, repaired->size) == 0, "what p25 repair writes");
    check(sent == bridged->size, "all that p25 bridge writes");
    free(whole);
}

static int files(const char *path) {
    char paths[4][256];
    FILE *list = fopen(path, "r");
    unsigned long count = 0;
    if (list == NULL) {
        perror(path);
        return 2;
    }
    while (fscanf(list, "%255s %255s %255s %255s", paths[0], paths[1], paths[2], paths[3]) == 4) {
        struct buffer part[4];
        for (int i = 0; i < 4; i++) {
            part[i] = file_of(paths[i]);
        }
        recording_name = paths[0];
        struct lines lines = {(const char *)part[1].at, (const char *)part[1].at + part[1].size};
        by_stream(&part[0], lines, count % 2 == 1, count % 3 > 0, count % 5 == 0 ? 3 : count % 5 == 1 ? 40 : LONGEST);
        by_many(&part[0], count % 2 == 1 ? 3 : 1000);
        by_place(&part[0], &part[2], &part[3]);
        for (int i = 0; i < 4; i++) {
            give_back(&part[i]);
        }
        count++;
    }
    fclose(list);
    printf("%lu recordings, %d failures\n", count, failures);
    return failures > 0;
}

/* Checks a stream with random numbers: each call returns, and one that fits no stream does not change. */
static void strange_streams(void) {
    struct buffer place = take(sizeof(p25_stream));
    p25_stream *stream = (p25_stream *)(void *)place.at;
    struct buffer octets = take(100);
    struct buffer text = take(P25_TEXT_ROOM);
    for (int i = 0; i < 200000; i++) {
        static p25_stream before;
        p25_item item;
        stream->begin = 8 * below(1000) + (below(20) == 0);
        stream->from = stream->begin + below(9) * below(8000) - (below(20) == 0);
        stream->held = (uint32_t)(below(20) == 0 ? below(UINT32_MAX) : below(8200));
        stream->ended = (uint8_t)(below(2) * below(256));
        stream->dibits = (uint8_t)below(5);
        stream->waiting = (uint8_t)below(70);
        if (below(20) == 0) {
            stream->begin = stream->begin / 8 * 8 + ((uint64_t)1 << 59) - 8 * below(1000);
            stream->from = stream->begin + below(8000);
        }
        before = *stream;
        bool fits = before.held <= P25_STREAM_OCTETS && before.dibits <= 3 && before.waiting < 1 << 2 * before.dibits && before.begin % 8 == 0 &&
                    before.from >= before.begin && before.from <= before.begin + 8 * (uint64_t)before.held && before.from <= (uint64_t)1 << 59;
        switch (below(3)) {
        case 0: {
            int32_t answer = p25_stream_push(stream, octets.at, below(101));
            check(fits ? before.ended != 0   ? answer == P25_ENDED
                         : before.dibits > 0 ? answer == P25_DIBITS_WAIT
                                             : answer >= 0
                       : answer == P25_OUTSIDE,
                  "what a strange stream returns for octets");
            check(answer >= 0 || memcmp(stream, &before, sizeof before) == 0, "a stream that takes no octets stays");
            break;
        }
        case 1: {
            int32_t answer = p25_stream_push_dibits(stream, octets.at, below(101));
            check(fits ? before.ended != 0 ? answer == P25_ENDED : answer >= 0 : answer == P25_OUTSIDE, "what a strange stream returns for dibits");
            check(answer >= 0 || memcmp(stream, &before, sizeof before) == 0, "a stream that takes no dibits stays");
            break;
        }
        default: {
            int32_t answer = p25_stream_next(stream, &item, (char *)text.at, below(2) * text.size);
            check((answer == P25_OUTSIDE) == !fits, "what a strange stream returns for next");
            check(answer == P25_ITEM || memcmp(stream, &before, sizeof before) == 0, "a stream that returns no item stays");
        }
        }
    }
    check(is_whole(&place, 0, sizeof *stream) && is_whole(&octets, 0, 0), "nothing is written beside a strange stream");
    give_back(&place);
    give_back(&octets);
    give_back(&text);
}

/* Checks a stream that fits none, and beginnings at a position. */
static void beginnings(void) {
    static p25_stream stream;
    static p25_fields fields;
    static p25_packet packet;
    p25_follower follower;
    p25_caller caller;
    p25_call call;
    p25_item item = {0, 144, 0, 0, 0, 0, P25_GAP};
    uint8_t into[8];
    p25_stream_begin_at(&stream, 4);
    p25_follower_begin(&follower);
    check(p25_stream_push(&stream, into, 1) == P25_OUTSIDE && p25_stream_item_octets(&stream, &item, into, 8) == P25_OUTSIDE &&
              p25_stream_repair(&stream, &item, into, 8) == P25_OUTSIDE && p25_stream_bridge(&stream, &item, 4096, 4, into, 8) == P25_OUTSIDE &&
              p25_stream_relay(&stream, &item, 4096, 4, into, 8) == P25_OUTSIDE && p25_stream_fields(&stream, &item, &fields) == P25_OUTSIDE &&
              p25_stream_packet(&stream, &item, &packet) == P25_OUTSIDE && p25_stream_follow(&stream, &item, &follower, into, 8) == P25_OUTSIDE,
          "a stream that fits none");
    p25_stream_begin_at(&stream, 8000);
    memset(stream.octets, 0, 20);
    check(p25_build("tdu nac=293", 11, 1, stream.octets, 18) == 18, "a unit in a stream that begins later");
    stream.held = 18;
    check(p25_stream_next(&stream, &item, NULL, 0) == P25_ITEM && item.place == 8000, "its item is at its position");
    p25_caller_begin_at(&caller, 8000, false);
    check(p25_caller_take(&caller, &item, &fields, &call) == P25_NO_CALL && caller.reached == 8144, "a caller that begins later takes it");
    p25_caller_begin_at(&caller, 8001, true);
    check(p25_caller_take(&caller, &item, &fields, &call) == P25_OUTSIDE && caller.by_gap == 1, "one that begins elsewhere does not");
    check(p25_caller_close(&caller, &call) == P25_NO_CALL && caller.reached == 8001 && caller.by_gap == 1, "a caller that is closed goes on");
    check(p25_caller_finish(&caller, &call) == P25_NO_CALL && caller.reached == 0 && caller.by_gap == 1, "and one that is finished begins anew");
    caller.is_open = 1, caller.run.bits = 1;
    check(p25_caller_close(&caller, &call) == P25_OUTSIDE, "a caller that fits none is not closed");
}

/* Checks the calls with NULL and the length 0, which must not follow the pointer. */
static void no_octets(void) {
    static p25_stream stream;
    p25_item item = {0};
    uint8_t into[8] = {0};
    check(p25_next_item(NULL, 0, 0, 0, true, &item, NULL, 0) == P25_NONE && p25_items(NULL, 0, 0, 0, true, NULL, 0) == 0, "no octets, no items");
    check(p25_item_octets(NULL, 0, 0, &item, NULL, 0) == 0, "an item of no bits");
    check(p25_repair(NULL, 0, NULL, 0) == P25_NO_UNIT && p25_bridge(NULL, 0, 0, 0, NULL, 0) == P25_NO_UNIT, "no octets, no unit");
    check(p25_repair_at(NULL, 0, 0, 0, NULL, 0) == P25_NO_UNIT && p25_bridge_at(NULL, 0, 0, 0, 0, 0, NULL, 0) == P25_NO_UNIT, "no octets, no unit there");
    check(p25_build(NULL, 0, 0, NULL, 0) == P25_LINE_FORM && p25_build("tdu nac=293", 11, 0, NULL, 0) == P25_NO_ROOM, "no line, no capacity");
    check(p25_crc16(NULL, 0) == p25_crc16(into, 0) && p25_crc32(NULL, 0) == p25_crc32(into, 0), "the checks of no octets");
    p25_stream_begin(&stream);
    check(p25_stream_push(&stream, NULL, 0) == 0 && p25_stream_push_dibits(&stream, NULL, 0) == 0, "nothing is pushed");
    check(p25_stream_next(&stream, &item, NULL, 0) == P25_NONE, "a stream of nothing");
    check(p25_build("tdu nac=293", 11, 0, stream.octets, 18) == 18, "a unit in a stream");
    stream.held = 18;
    check(p25_stream_next(&stream, &item, NULL, 0) == P25_ITEM && item.text_length == 0 && item.bits == 144, "an item without capacity for a text");
}

/* Erasures of each kind, also those that a call with bool would take by their number. */
static void marks(void) {
    uint8_t symbols[36] = {0};
    uint8_t some[36] = {0};
    for (int i = 0; i < 16; i++) {
        symbols[i] = 1;
        some[i] = (uint8_t)(1u << i % 8);
    }
    check(p25_rs_36_20_read_marked(symbols, some) == 16 && symbols[0] == 0 && symbols[15] == 0, "each octet but 0 is a mark");
    some[0] = 0;
    symbols[0] = 1;
    check(p25_rs_36_20_read_marked(symbols, some) == P25_BEYOND || symbols[0] == 0, "a symbol without a mark");
    for (int round = 0; round < 2000; round++) {
        uint8_t word[36];
        uint8_t same[36];
        bool erased[36];
        for (int i = 0; i < 36; i++) {
            word[i] = same[i] = (uint8_t)below(64);
            some[i] = (uint8_t)(below(3) == 0 ? below(256) : 0);
            erased[i] = some[i] != 0;
        }
        check(p25_rs_36_20_read_marked(word, some) == p25_rs_36_20_read_erased(same, erased) && memcmp(word, same, 36) == 0, "marks (36,20)");
        check(p25_rs_24_12_write(word) == 0 && p25_rs_24_12_write(same) == 0, "a word");
        word[3] = same[3] = 0;
        check(p25_rs_24_12_read_marked(word, some) == p25_rs_24_12_read_erased(same, erased) && memcmp(word, same, 36) == 0, "marks (24,12)");
        check(p25_rs_24_16_read_marked(word, some) == p25_rs_24_16_read_erased(same, erased) && memcmp(word, same, 36) == 0, "marks (24,16)");
    }
}

/* Checks refusals, in their order, and buffers of no capacity. */
static void edges(void) {
    static const char line[] = "tdu nac=293";
    uint8_t unit[64] = {0};
    uint8_t into[64];
    p25_item item = {0};
    p25_item none = {0};
    check(p25_build(line, sizeof line - 1, 1, unit, sizeof unit) == 18, "a unit");
    check(p25_items(unit, 18, 0, 0, true, &item, 0) == 0 && item.bits == 0, "no capacity for items");
    check(p25_items(unit, 18, 4, 8, true, &item, 1) == P25_OUTSIDE && p25_items(unit, 18, 0, 145, true, &item, 1) == P25_OUTSIDE &&
              p25_items(unit, 18, 16, 15, true, &item, 1) == P25_OUTSIDE && item.bits == 0,
          "items outside");
    check(p25_items(unit, 18, 0, 144, true, &item, 1) == 0 && p25_items(unit, 17, 0, 0, false, &item, 1) == 0 && item.bits == 0, "no item there");
    check(p25_items(unit, 18, 0, 0, false, &item, 1) == 1 && item.bits == 144 && item.kind == P25_UNIT && item.text_length == 0, "an item");
    memset(into, MARK, sizeof into);
    none = item;
    none.bits = 25921;
    check(p25_item_octets(unit, 64, 0, &none, into, 64) == P25_OUTSIDE, "an item of too many bits");
    none.bits = UINT32_MAX;
    none.place = UINT64_MAX;
    check(p25_item_octets(unit, 64, 0, &none, into, 64) == P25_OUTSIDE, "an item at the greatest position");
    check(p25_item_octets(unit, 17, 0, &item, into, 64) == P25_OUTSIDE && p25_item_octets(unit, 18, 8, &item, into, 64) == P25_OUTSIDE, "bits that are not there");
    check(p25_item_octets(unit, 18, 0, &item, into, 17) == P25_NO_ROOM, "an octet less than the item");
    check(p25_bridge_at(unit, 17, 1, 0, 4096, 4, into, 0) == P25_WRONG_NAC, "the access code before all else");
    check(p25_bridge_at(unit, 17, 1, 0, 4095, 4, into, 0) == P25_WRONG_STATUS, "the status before the position");
    check(p25_bridge_at(unit, 17, 1, 0, 4095, 3, into, 0) == P25_OUTSIDE, "the position before the unit");
    check(p25_bridge_at(unit, 17, 0, 0, 4095, 3, into, 0) == P25_NO_UNIT, "the unit before the capacity");
    check(p25_bridge_at(unit, 18, 0, 0, 4095, 3, into, 17) == P25_NO_ROOM, "capacity to bridge");
    check(p25_repair_at(unit, 17, 1, 0, into, 0) == P25_OUTSIDE && p25_repair_at(unit, 17, 0, 0, into, 0) == P25_NO_UNIT &&
              p25_repair_at(unit, 18, 0, 0, into, 17) == P25_NO_ROOM,
          "the refusals of a repair");
    for (size_t i = 0; i < sizeof into; i++) {
        check(into[i] == MARK, "what is refused writes nothing");
    }
    no_octets();
    marks();
    beginnings();
    strange_streams();
}

int main(int count, char **argument) {
    if (count == 2 && strcmp(argument[1], "edges") == 0) {
        edges();
        printf("edges, %d failures\n", failures);
        return failures > 0;
    }
    if (count == 2) {
        return files(argument[1]);
    }
    fputs("pieces: the head of pieces.c has its words\n", stderr);
    return 2;
}
