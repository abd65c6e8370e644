#include "p25.h"
#include <inttypes.h>
#include <stdio.h>
#include <unistd.h>
static p25_stream heard, stream; /* the recording, and its form after the follower */
static p25_follower follower;
static p25_caller caller;
static FILE *part; /* the data units of the run that is open */

static void end_part(const p25_call *call) { /* it becomes the files of a call, or none */
    static const char *const ends[] = {"open", "tdu", "tdulc"};
    char name[64], beside[64];
    p25_link link = {0};
    if (part == NULL) return;
    fclose(part);
    part = NULL;
    if (call == NULL) { remove("open.part"); return; }
    if (call->has_lc) p25_link_read(call->lc, &link);
    snprintf(name, sizeof name, "%" PRIu64 "_%04x.bin", call->place, link.group);
    snprintf(beside, sizeof beside, "%" PRIu64 "_%04x.json", call->place, link.group);
    FILE *file = fopen(beside, "w");
    if (file == NULL || rename("open.part", name) != 0) { perror("recorder"); return; }
    fprintf(file, "{\"place\": %" PRIu64 ", \"bits\": %" PRIu64 ", \"nac\": %u, \"group\": %u, \"source\": %u, \"voice\": %u, \"broken\": %u, \"end\": \"%s\"}\n",
            call->place, call->bits, call->nac, link.group, (unsigned)link.source, (unsigned)call->links, (unsigned)call->broken, ends[call->end]);
    fclose(file);
    puts(name);
}
static void put_unit(const p25_item *item) {
    uint8_t unit[P25_UNIT_ROOM] = {0};
    int32_t n = p25_stream_item_octets(&stream, item, unit, sizeof unit);
    if (part == NULL && (part = fopen("open.part", "wb")) == NULL) perror("recorder");
    if (part != NULL && n > 0) fwrite(unit, 1, (size_t)n, part);
}
static void record(const uint8_t *octets, int32_t n, bool ended) { /* the output of the follower */
    static p25_fields fields;
    static p25_call call;
    p25_item item = {0};
    if (n > 0) p25_stream_push(&stream, octets, (size_t)n);
    if (ended) p25_stream_end(&stream);
    while (p25_stream_next(&stream, &item, NULL, 0) == P25_ITEM) {
        p25_stream_fields(&stream, &item, &fields);
        bool is_call = p25_caller_take(&caller, &item, &fields, &call) == P25_CALL;
        if (is_call && !p25_call_has(&call, &item)) end_part(&call), is_call = false;
        if (caller.is_open && caller.run.place == item.place) end_part(NULL); /* a run begins */
        if (is_call || (caller.is_open && p25_call_has(&caller.run, &item))) put_unit(&item);
        if (is_call || !caller.is_open) end_part(is_call ? &call : NULL);
    }
    if (ended) end_part(p25_caller_finish(&caller, &call) == P25_CALL ? &call : NULL);
}
int main(void) {
    static uint8_t piece[4096], out[P25_FOLLOW_ROOM]; /* once P25_NONE has come, a stream takes 4,928 octets or more */
    p25_item item = {0};
    p25_stream_begin(&heard), p25_stream_begin(&stream), p25_follower_begin(&follower), p25_caller_begin_at(&caller, 0, true);
    for (ssize_t n = 1; n > 0;) {
        if ((n = read(STDIN_FILENO, piece, sizeof piece)) > 0) p25_stream_push(&heard, piece, (size_t)n);
        else p25_stream_end(&heard);
        while (p25_stream_next(&heard, &item, NULL, 0) == P25_ITEM) record(out, p25_stream_follow(&heard, &item, &follower, out, sizeof out), false);
    }
    record(out, p25_follower_finish(&follower, out, sizeof out), true);
}
