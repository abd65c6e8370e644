/* Makes the calls of the library for values in place of text, one kind in a run, so that bindings/test can compare their results with the output of p25.

   usage: values units                 standard input is a recording: the line of each whole unit, as `p25 build` reads it
          values build STATUS          the octets of each whole unit, built anew of its values
          values links                 the values of the link control of each whole unit
          values broken                the failing blocks of each packet that decodes, and why one does not
          values calls                 the calls, as `p25 calls` prints them
          values layout                the size of each struct, and the offsets of its members
          values edges                 refusals, and the octets that are not written

   Each buffer of a call lies between pages that may be neither read nor written: first at the end of its page, then at the beginning. Both times the results
   are the same. */
#include "p25.h"

#include <stdio.h>
#include <stdlib.h>
#include <string.h>
#include <sys/mman.h>
#include <unistd.h>

enum { MOST = 1 << 25, PAGE = 4096, MARK = 0xA5 };

static int failures;

/* Prints which check failed. */
static void check(bool holds, const char *name) {
    if (!holds) {
        printf("failed: %s\n", name);
        failures++;
    }
}

/* Returns a buffer of `size` octets at the beginning of a page, or at the end of one; the pages before and after are closed. */
static void *between_guards(size_t size, bool at_end) {
    size_t pages = (size + PAGE - 1) / PAGE + (size == 0);
    uint8_t *all = mmap(NULL, (pages + 2) * PAGE, PROT_NONE, MAP_PRIVATE | MAP_ANONYMOUS, -1, 0);
    if (all == MAP_FAILED || mprotect(all + PAGE, pages * PAGE, PROT_READ | PROT_WRITE) != 0) {
        perror("values");
        exit(3);
    }
    return at_end ? all + PAGE + pages * PAGE - size : all + PAGE;
}

/* The buffers of the calls, each between guards. */
typedef struct {
    uint8_t *octets;
    size_t n;
    p25_item *item;
    p25_fields *fields;
    p25_link *link;
    p25_call *call;
    p25_caller *caller;
    p25_packet *packet;
    uint8_t *unit;
    uint8_t *lc;
} room;

static room room_of(const uint8_t *octets, size_t n, bool at_end) {
    room made = {.n = n};
    made.octets = between_guards(n, at_end);
    if (n > 0) {
        memcpy(made.octets, octets, n);
    }
    made.item = between_guards(sizeof(p25_item), at_end);
    made.fields = between_guards(sizeof(p25_fields), at_end);
    made.link = between_guards(sizeof(p25_link), at_end);
    made.call = between_guards(sizeof(p25_call), at_end);
    made.caller = between_guards(sizeof(p25_caller), at_end);
    made.packet = between_guards(sizeof(p25_packet), at_end);
    made.unit = between_guards(P25_UNIT_ROOM, at_end);
    made.lc = between_guards(9, at_end);
    return made;
}

static void put_hex(FILE *out, const char *key, const uint8_t *octets, size_t count) {
    fputs(key, out);
    for (size_t i = 0; i < count; i++) {
        fprintf(out, "%02x", octets[i]);
    }
}

/* Finds the next item of the recording. */
static bool next(const room *in, uint64_t *from) {
    char none;
    if (p25_next_item(in->octets, in->n, 0, *from, true, in->item, &none, 0) != P25_ITEM) {
        return false;
    }
    *from = in->item->place + in->item->bits;
    return true;
}

/* Takes the fields of the item, if it is a whole unit, and checks that there are none else. */
static bool has_fields(const room *in) {
    memset(in->fields, MARK, sizeof *in->fields);
    int32_t answer = p25_unit_fields(in->octets, in->n, 0, in->item->place, in->fields);
    check(answer == (in->item->kind == P25_UNIT ? P25_FIELDS : P25_NO_UNIT), "a whole unit has fields, and nothing else has");
    return answer == P25_FIELDS;
}

/* Prints the line of a voice unit, and checks that the fields that its type does not have are 0. */
static void put_voice(FILE *out, const p25_fields *it) {
    static const char *const names[16] = {[P25_HDU] = "hdu", [P25_TDU] = "tdu", [P25_LDU1] = "ldu1", [P25_LDU2] = "ldu2", [P25_TDULC] = "tdulc"};
    p25_fields had = *it;
    fprintf(out, "%s nac=%03x", names[it->duid] ? names[it->duid] : "?", it->nac);
    if (it->has_lc == 1) {
        put_hex(out, " lc=", it->lc, 9);
    }
    if (it->has_mi == 1) {
        put_hex(out, " mi=", it->mi, 9);
    }
    if (it->has_tgid == 1) {
        fprintf(out, " mfid=%02x", it->mfid);
    }
    if (it->has_mi == 1) {
        fprintf(out, " algid=%02x kid=%04x", it->algid, it->kid);
    }
    if (it->has_tgid == 1) {
        fprintf(out, " tgid=%04x", it->tgid);
    }
    if (it->has_voice == 1) {
        put_hex(out, " lsd=", it->lsd, 2);
        put_hex(out, " voice=", it->voice[0], sizeof it->voice);
    }
    fputc('\n', out);
    check((it->has_lc | it->has_mi | it->has_tgid | it->has_voice) <= 1, "a member that says yes or no is 1 or 0");
    if (it->has_lc) {
        memset(had.lc, 0, sizeof had.lc);
    }
    if (it->has_mi) {
        memset(had.mi, 0, sizeof had.mi);
        had.algid = 0;
        had.kid = 0;
    }
    if (it->has_tgid) {
        had.mfid = 0;
        had.tgid = 0;
    }
    if (it->has_voice) {
        memset(had.lsd, 0, sizeof had.lsd);
        memset(had.voice, 0, sizeof had.voice);
    }
    p25_fields none;
    memset(&none, 0, sizeof none);
    none.nac = it->nac;
    none.duid = it->duid;
    none.has_lc = it->has_lc;
    none.has_mi = it->has_mi;
    none.has_tgid = it->has_tgid;
    none.has_voice = it->has_voice;
    memset((uint8_t *)&had + offsetof(p25_fields, voice) + sizeof had.voice, 0, sizeof had - offsetof(p25_fields, voice) - sizeof had.voice);
    check(memcmp(&had, &none, sizeof had) == 0, "what a kind has not is 0");
}

/* Prints the line of a packet, and checks that its members are those of its header. */
static void put_packet(FILE *out, const p25_packet *it) {
    const uint8_t *head = it->head;
    fprintf(out, "%s nac=%03x", it->format == P25_CONFIRMED ? "confirmed" : it->format == P25_PLAIN ? "plain" : "response", it->nac);
    put_hex(out, " head=", head, 10);
    if (it->format == P25_CONFIRMED) {
        fputs(it->blocks > 0 ? " blocks=" : " blocks=-", out);
        for (unsigned j = 0; j < it->blocks; j++) {
            check(it->good[j] == 1, "each block of a whole packet is good");
            fprintf(out, "%s%02x", j > 0 ? "," : "", it->serials[j]);
            put_hex(out, ":", it->octets + 16 * j, 16);
        }
        check(it->length == 16 * it->blocks, "the length of a confirmed packet");
    } else {
        put_hex(out, " octets=", it->octets, it->length);
        fputs(it->length > 0 ? "" : "-", out);
        check(it->length == (it->blocks > 0 ? 12 * it->blocks - 4 : 0), "the length of a packet that is not confirmed");
    }
    fputc('\n', out);
    check(it->format == (head[0] & 31) && it->full == head[6] >> 7 && it->blocks == (head[6] & 127) && it->pad == (head[7] & 31) &&
              it->syn == head[8] >> 7 && it->number == (head[8] >> 4 & 7) && it->response_class == head[1] >> 6 &&
              it->response_type == (head[1] >> 3 & 7) && it->response_status == (head[1] & 7) &&
              it->llid == ((uint32_t)head[3] << 16 | (uint32_t)head[4] << 8 | head[5]),
          "the fields of a header");
    for (size_t i = it->length; i < sizeof it->octets; i++) {
        check(it->octets[i] == 0, "what is no data is 0");
    }
}

/* Takes the packet that begins at the item, and returns the return value. */
static int32_t packet_at_item(const room *in) {
    memset(in->packet, MARK, sizeof *in->packet);
    return p25_packet_read(in->octets, in->n, 0, in->item->place, in->packet);
}

static void units(const room *in, FILE *out) {
    for (uint64_t from = 0; next(in, &from);) {
        if (!has_fields(in)) {
            continue;
        }
        check(in->fields->nac == in->item->nac && in->fields->duid == in->item->duid, "an identifier is that of the item");
        if (in->fields->duid != P25_PDU) {
            put_voice(out, in->fields);
            check(packet_at_item(in) == P25_NO_UNIT, "no voice unit is a packet");
        } else {
            check(packet_at_item(in) == 0 && in->packet->bad == 0 && in->packet->nac == in->item->nac, "a whole packet is read");
            put_packet(out, in->packet);
        }
    }
}

static void build(const room *in, FILE *out, uint8_t status) {
    for (uint64_t from = 0; next(in, &from);) {
        if (has_fields(in)) {
            int32_t count = in->fields->duid != P25_PDU ? p25_build_fields(in->fields, status, in->unit, P25_UNIT_ROOM)
                            : packet_at_item(in) == 0   ? p25_build_packet(in->packet, status, in->unit, P25_UNIT_ROOM)
                                                        : 0;
            check(count == (int32_t)in->item->bits / 8, "the length of a unit that is built");
            fwrite(in->unit, 1, count > 0 ? (size_t)count : 0, out);
        }
    }
}

static void links(const room *in, FILE *out) {
    static const char *const kinds[] = {"other", "group", "individual"};
    for (uint64_t from = 0; next(in, &from);) {
        if (has_fields(in) && in->fields->has_lc) {
            memcpy(in->lc, in->fields->lc, 9);
            memset(in->link, MARK, sizeof *in->link);
            p25_link_read(in->lc, in->link);
            fprintf(out, "%s mfid=%02x emergency=%u group=%04x source=%06x destination=%06x\n", kinds[in->link->kind % 3], in->link->mfid,
                    in->link->emergency, in->link->group, (unsigned)in->link->source, (unsigned)in->link->destination);
        }
    }
}

/* Prints the failing blocks of each item that is a packet, whole or broken. */
static void broken(const room *in, FILE *out) {
    for (uint64_t from = 0; next(in, &from);) {
        if (in->item->kind > P25_BROKEN || in->item->duid != P25_PDU) {
            continue;
        }
        int32_t answer = packet_at_item(in);
        fprintf(out, "at=%llu fields=", (unsigned long long)in->item->place);
        if (answer < 0) {
            fprintf(out, "%s\n", answer == P25_PACKET_CRC ? "packet_crc" : answer == P25_PACKET_FORMAT ? "format" : "?");
            continue;
        }
        int32_t count = 0;
        for (unsigned j = 0; in->packet->format == P25_CONFIRMED && j < in->packet->blocks; j++) {
            if (!in->packet->good[j]) {
                fprintf(out, "%sblock.%u", count > 0 ? "," : "", j);
                count++;
            }
        }
        check(count == answer && count == in->packet->bad, "as many blocks fail as is answered");
        fputc('\n', out);
    }
}

static void put_call(FILE *out, const p25_call *it) {
    static const char *const ends[] = {"open", "tdu", "tdulc"};
    fprintf(out, "call at=%llu bits=%llu nac=%03x entry=%s end=%s links=%u broken=%u", (unsigned long long)it->place,
            (unsigned long long)it->bits, it->nac, it->late ? "late" : "header", ends[it->end % 3], (unsigned)it->links,
            (unsigned)it->broken);
    if (it->has_lc) {
        put_hex(out, " lc=", it->lc, 9);
    } else {
        fputs(" lc=none", out);
    }
    if (it->has_algid) {
        fprintf(out, " alg=%02x\n", it->algid);
    } else {
        fputs(" alg=none\n", out);
    }
}

static void calls(const room *in, FILE *out) {
    unsigned count = 0;
    p25_caller_begin(in->caller);
    for (uint64_t from = 0; next(in, &from);) {
        memset(in->call, MARK, sizeof *in->call);
        (void)has_fields(in);
        int32_t answer = p25_caller_take(in->caller, in->item, in->fields, in->call);
        check(answer == P25_CALL || answer == P25_NO_CALL, "an item in its turn is taken");
        if (answer == P25_CALL) {
            put_call(out, in->call);
            count++;
        }
        check(p25_caller_take(in->caller, in->item, in->fields, in->call) == P25_OUTSIDE, "an item is taken once");
    }
    if (p25_caller_finish(in->caller, in->call) == P25_CALL) {
        put_call(out, in->call);
        count++;
    }
    check(p25_caller_finish(in->caller, in->call) == P25_NO_CALL, "a finished caller has no call");
    fprintf(out, "calls=%u\n", count);
}

static void layout(void) {
#define AT(type, part) printf(" %zu", offsetof(type, part))
    printf("%zu", sizeof(p25_link));
    AT(p25_link, source), AT(p25_link, destination), AT(p25_link, group), AT(p25_link, kind), AT(p25_link, mfid), AT(p25_link, emergency);
    printf("\n%zu", sizeof(p25_fields));
    AT(p25_fields, nac), AT(p25_fields, kid), AT(p25_fields, tgid), AT(p25_fields, duid), AT(p25_fields, mfid), AT(p25_fields, algid);
    AT(p25_fields, has_lc), AT(p25_fields, has_mi), AT(p25_fields, has_tgid), AT(p25_fields, has_voice), AT(p25_fields, lc);
    AT(p25_fields, mi), AT(p25_fields, lsd), AT(p25_fields, voice);
    printf("\n%zu", sizeof(p25_call));
    AT(p25_call, place), AT(p25_call, bits), AT(p25_call, links), AT(p25_call, broken), AT(p25_call, nac), AT(p25_call, late);
    AT(p25_call, end), AT(p25_call, has_lc), AT(p25_call, has_algid), AT(p25_call, algid), AT(p25_call, lc);
    printf("\n%zu", sizeof(p25_caller));
    AT(p25_caller, reached), AT(p25_caller, taken), AT(p25_caller, is_open), AT(p25_caller, by_gap), AT(p25_caller, run);
    printf("\n%zu", sizeof(p25_packet));
    AT(p25_packet, llid), AT(p25_packet, nac), AT(p25_packet, length), AT(p25_packet, head), AT(p25_packet, format), AT(p25_packet, full);
    AT(p25_packet, blocks), AT(p25_packet, pad), AT(p25_packet, syn), AT(p25_packet, number), AT(p25_packet, response_class);
    AT(p25_packet, response_type), AT(p25_packet, response_status), AT(p25_packet, bad), AT(p25_packet, good), AT(p25_packet, serials);
    AT(p25_packet, octets);
    printf("\n%zu", sizeof(p25_follower));
    AT(p25_follower, reached), AT(p25_follower, nac), AT(p25_follower, stretch), AT(p25_follower, duid), AT(p25_follower, has_unit);
    AT(p25_follower, waits), AT(p25_follower, waiting), AT(p25_follower, octets);
    printf("\n");
#undef AT
}

/* Returns whether each of these octets is the mark. */
static bool all_are(const void *from, size_t count) {
    const uint8_t *octet = from;
    while (count > 0 && *octet == MARK) {
        octet++;
        count--;
    }
    return count == 0;
}

/* Checks the fields that are refused, and that nothing is written then. */
static void field_edges(const room *in) {
    p25_fields it;
    memset(&it, 0, sizeof it);
    memset(in->unit, MARK, P25_UNIT_ROOM);
    it.nac = 4096;
    it.duid = 7;
    check(p25_build_fields(&it, 4, in->unit, 0) == P25_WRONG_NAC, "an access code above 4095 before all else");
    it.nac = 4095;
    check(p25_build_fields(&it, 4, in->unit, 0) == P25_WRONG_STATUS, "a status above 3 before the identifier");
    for (unsigned duid = 0; duid < 256; duid++) {
        static const uint8_t lengths[16] = {[P25_HDU] = 99, [P25_TDU] = 18, [P25_LDU1] = 216, [P25_LDU2] = 216, [P25_TDULC] = 54};
        int32_t length = duid < 16 ? lengths[duid] : 0;
        it.duid = (uint8_t)duid;
        check(p25_build_fields(&it, 3, in->unit, 0) == (length ? P25_NO_ROOM : P25_WRONG_DUID), "each identifier, with no capacity");
        if (length) {
            check(p25_build_fields(&it, 3, in->unit, (size_t)length - 1) == P25_NO_ROOM, "capacity for an octet less");
            check(all_are(in->unit, P25_UNIT_ROOM), "what builds no unit writes nothing");
            check(p25_build_fields(&it, 3, in->unit, (size_t)length) == length, "capacity for the unit alone");
            check(all_are(in->unit + length, P25_UNIT_ROOM - (size_t)length), "nothing is written after a unit");
            memset(in->unit, MARK, P25_UNIT_ROOM);
        }
    }
    memset(in->fields, MARK, sizeof *in->fields);
    check(p25_unit_fields(in->octets, 0, 0, 0, in->fields) == P25_NO_UNIT, "no octets have no unit");
    check(p25_unit_fields(in->octets, in->n, 4, 8, in->fields) == P25_OUTSIDE, "a beginning inside an octet");
    check(p25_unit_fields(in->octets, in->n, 0, 8 * in->n + 1, in->fields) == P25_OUTSIDE, "a position after the octets");
    check(p25_unit_fields(in->octets, in->n, 16, 15, in->fields) == P25_OUTSIDE, "a position before the octets");
    check(p25_unit_fields(in->octets, in->n, UINT64_MAX - 7, UINT64_MAX, in->fields) == P25_OUTSIDE, "the greatest position");
    check(all_are(in->fields, sizeof *in->fields), "a call that returns no fields writes nothing");
}

/* Checks the packets that are refused, and that nothing is written then. */
static void packet_edges(const room *in) {
    p25_packet *it = in->packet;
    memset(it, MARK, sizeof *it);
    check(p25_packet_read(in->octets, 44 < in->n ? 44 : in->n, 0, 0, it) == P25_NO_UNIT, "fewer than 360 bits are no packet");
    check(p25_packet_read(in->octets, in->n, 0, 8 * in->n, it) == P25_NO_UNIT, "no packet at the end");
    check(p25_packet_read(in->octets, in->n, 4, 8, it) == P25_OUTSIDE, "a packet that begins inside an octet");
    check(p25_packet_read(in->octets, in->n, 0, 8 * in->n + 1, it) == P25_OUTSIDE, "a packet after the octets");
    check(all_are(it, sizeof *it), "a call that returns no packet writes nothing");
    memset(in->unit, MARK, P25_UNIT_ROOM);
    memset(it, 0, sizeof *it);
    it->nac = 4096;
    check(p25_build_packet(it, 4, in->unit, 0) == P25_WRONG_NAC, "a packet's access code above 4095");
    it->nac = 4095;
    check(p25_build_packet(it, 4, in->unit, 0) == P25_WRONG_STATUS, "a packet's status above 3");
    for (unsigned format = 0; format < 32; format++) {
        it->head[0] = (uint8_t)format;
        bool is_known = format == P25_CONFIRMED || format == P25_PLAIN || format == P25_RESPONSE;
        check(p25_build_packet(it, 3, in->unit, 0) == (is_known ? P25_NO_ROOM : P25_WRONG_PACKET), "each format");
    }
    it->head[0] = P25_CONFIRMED;
    it->head[6] = 127;
    for (unsigned j = 0; j < 127; j++) {
        check(p25_build_packet(it, 3, in->unit, P25_UNIT_ROOM) == P25_WRONG_PACKET, "a block that is not good");
        it->good[j] = (uint8_t)(j + 1);
        it->serials[j] = 128;
        check(p25_build_packet(it, 3, in->unit, P25_UNIT_ROOM) == P25_WRONG_PACKET, "a serial number above 127");
        it->serials[j] = 127;
    }
    check(p25_build_packet(it, 3, in->unit, P25_UNIT_ROOM - 1) == P25_NO_ROOM, "capacity for an octet less than the longest unit");
    check(all_are(in->unit, P25_UNIT_ROOM), "a call that builds no packet writes nothing");
    check(p25_build_packet(it, 3, in->unit, P25_UNIT_ROOM) == P25_UNIT_ROOM, "the longest unit");
}

/* Checks what a caller refuses, and that its state then does not change. */
static void caller_edges(const room *in) {
    p25_caller before;
    p25_item item = {.bits = 1728, .nac = 0x293, .duid = P25_LDU1, .kind = P25_BROKEN};
    p25_fields fields;
    memset(&fields, MARK, sizeof fields);
    memset(in->call, MARK, sizeof *in->call);
    memset(in->caller, MARK, sizeof *in->caller);
    before = *in->caller;
    check(p25_caller_take(in->caller, &item, &fields, in->call) == P25_OUTSIDE, "a caller that nothing set");
    check(p25_caller_finish(in->caller, in->call) == P25_OUTSIDE, "the end of a caller that nothing set");
    check(memcmp(in->caller, &before, sizeof before) == 0, "it stays as it is");
    p25_caller_begin(in->caller);
    item.place = 1;
    check(p25_caller_take(in->caller, &item, &fields, in->call) == P25_OUTSIDE, "a first item that is not at position 0");
    item.place = 0;
    check(p25_caller_take(in->caller, &item, &fields, in->call) == P25_NO_CALL, "a broken LDU1 opens a call");
    check(p25_caller_take(in->caller, &item, &fields, in->call) == P25_OUTSIDE, "an item is not taken twice");
    check(all_are(in->call, sizeof *in->call), "nothing is written if no call ends");
    item.place = 1728;
    item.duid = P25_TDU;
    item.bits = 144;
    check(p25_caller_take(in->caller, &item, &fields, in->call) == P25_CALL, "a terminator ends it");
    check(in->call->place == 0 && in->call->bits == 1872 && in->call->end == P25_END_TDU && in->call->late == 1 && in->call->links == 1 &&
              in->call->broken == 2 && in->call->has_lc == 0 && in->call->has_algid == 0,
          "the values of the call");
    in->caller->taken = UINT32_MAX;
    item.place = 1872;
    check(p25_caller_take(in->caller, &item, &fields, in->call) == P25_OUTSIDE, "the last item that is counted");
    in->caller->taken = 0;
    in->caller->reached = item.place = (uint64_t)1 << 60;
    check(p25_caller_take(in->caller, &item, &fields, in->call) == P25_OUTSIDE, "a position at 2^60");
}

/* Makes one kind of calls in buffers that end and that begin at a guard, and prints the first output if the second is the same. */
static void twice(const uint8_t *octets, size_t n, void (*run)(const room *, FILE *, uint8_t), uint8_t status) {
    char *printed[2];
    size_t lengths[2];
    for (int i = 0; i < 2; i++) {
        room in = room_of(octets, n, i == 0);
        FILE *out = open_memstream(&printed[i], &lengths[i]);
        run(&in, out, status);
        fclose(out);
    }
    check(lengths[0] == lengths[1] && memcmp(printed[0], printed[1], lengths[0]) == 0, "the same wherever the buffers lie");
    fwrite(printed[0], 1, lengths[0], stdout);
    free(printed[0]);
    free(printed[1]);
}

static void run_units(const room *in, FILE *out, uint8_t status) { (void)status, units(in, out); }
static void run_links(const room *in, FILE *out, uint8_t status) { (void)status, links(in, out); }
static void run_broken(const room *in, FILE *out, uint8_t status) { (void)status, broken(in, out); }
static void run_calls(const room *in, FILE *out, uint8_t status) { (void)status, calls(in, out); }
static void run_build(const room *in, FILE *out, uint8_t status) { build(in, out, status); }
static void run_edges(const room *in, FILE *out, uint8_t status) {
    (void)status, (void)out;
    field_edges(in);
    packet_edges(in);
    caller_edges(in);
}

int main(int count, char **words) {
    static const struct {
        const char *name;
        void (*run)(const room *, FILE *, uint8_t);
    } kinds[] = {{"units", run_units}, {"build", run_build}, {"links", run_links}, {"broken", run_broken}, {"calls", run_calls}, {"edges", run_edges}};
    if (count == 2 && strcmp(words[1], "layout") == 0) {
        layout();
        return 0;
    }
    bool all = count > 2 && strcmp(words[1], "all") == 0;
    uint8_t status = (uint8_t)(count > 2 ? atoi(words[2]) : 0);
    uint8_t *octets = malloc(MOST);
    size_t n = octets && count > 1 ? fread(octets, 1, MOST, stdin) : 0;
    size_t made = 0;
    for (size_t i = 0; count > 1 && i < sizeof kinds / sizeof *kinds; i++) {
        char name[32];
        snprintf(name, sizeof name, "got.%s", kinds[i].name);
        if (strcmp(words[1], kinds[i].name) == 0 || (all && strcmp(kinds[i].name, "edges") != 0 && freopen(name, "wb", stdout) != NULL)) {
            twice(octets, n, kinds[i].run, status);
            made++;
        }
    }
    free(octets);
    if (made > 0) {
        return failures > 0;
    }
    fputs("usage: values units | build STATUS | links | broken | calls | all STATUS | layout | edges\n", stderr);
    return 2;
}
