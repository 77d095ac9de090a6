/* Watches a recorded line with resends over the C face, by watch_feed_segment.
 *
 *     tools/build-c
 *     gcc -std=c11 -Wall -Wextra -Werror -Iinclude bindings/c/segments.c target/staticlib/libwatch_c.a -o target/segments
 *     target/segments examples/two-breakfasts/rules.bin examples/two-breakfasts/resent
 *
 * Those are the commands on x86-64. Elsewhere the compiler is x86_64-linux-gnu-gcc with -static, and qemu-x86_64 stands before the program.
 *
 * Usage: segments RULES LINE. A segment is recorded as the number of its first byte, 4 bytes, its length, 2 bytes, both low byte first, and its
 * bytes; the first segment's number is that of the flow's first byte. Writes a line for each pair, signature and offset, `again` and its number for a
 * segment that has to be sent again, and last `end` and the offset, or `refused` and the number.
 *
 * The exit status is 0 where the line ended, 1 where it was refused, 2 where a file could not be read or the archive is not the header's.
 */
#include <inttypes.h>
#include <stdio.h>
#include <stdlib.h>

#include "watch.h"

static uint8_t list[WATCH_MOST_LIST + 1], flow[WATCH_FLOW_SIZE], held[WATCH_HELD_SIZE], segment[WATCH_MOST_SEGMENT];
static uint32_t pairs[WATCH_ENOUGH_WORDS];
static size_t list_len;
static uint32_t first, held_start, held_length;

static FILE *opened(const char *name)
{
    FILE *file = fopen(name, "rb");
    if (file == NULL) {
        fprintf(stderr, "segments: cannot open %s\n", name);
        exit(2);
    }
    return file;
}

static void tell(uint64_t count)
{
    for (uint64_t i = 0; i < count; i++)
        printf("%" PRIu32 " %" PRIu32 "\n", pairs[2 * i], pairs[2 * i + 1]);
}

/* Hands in a segment until nothing is due any more, as often as its pairs have no room; answers the refusal. */
static uint32_t hear(uint32_t start, size_t len)
{
    for (;;) {
        watch_heard heard = watch_feed_segment(list, list_len, flow, sizeof flow, first, held, sizeof held, held_start, held_length, start, segment,
                                               len, pairs, WATCH_ENOUGH_WORDS);
        held_start = heard.held_start;
        held_length = heard.held_length;
        tell(heard.pairs);
        if (heard.refusal != WATCH_PASSED || heard.all)
            return heard.refusal;
    }
}

int main(int argc, char **argv)
{
    if (argc != 3) {
        fprintf(stderr, "usage: segments RULES LINE\n");
        return 2;
    }
    if (watch_version() != WATCH_VERSION) {
        fprintf(stderr, "segments: the archive has version %" PRIu32 ", the header %d\n", watch_version(), WATCH_VERSION);
        return 2;
    }
    FILE *rules = opened(argv[1]), *line = opened(argv[2]);
    list_len = fread(list, 1, sizeof list, rules);
    watch_opened begun = watch_open(list, list_len, flow, sizeof flow, pairs, WATCH_ENOUGH_WORDS);
    uint32_t refusal = begun.refusal;
    tell(begun.pairs);
    uint8_t head[6];
    for (int count = 0; refusal == WATCH_PASSED && fread(head, 1, sizeof head, line) == sizeof head; count++) {
        uint32_t start = head[0] | head[1] << 8 | head[2] << 16 | (uint32_t)head[3] << 24;
        size_t len = head[4] | head[5] << 8;
        if (fread(segment, 1, len, line) != len)
            break;
        if (count == 0)
            first = start;
        refusal = hear(start, len);
        if (refusal == WATCH_REFUSED_SEGMENT) {
            printf("again %" PRIu32 "\n", start);
            refusal = WATCH_PASSED;
        }
    }
    if (refusal != WATCH_PASSED) {
        printf("refused %" PRIu32 "\n", refusal);
        fprintf(stderr, "segments: %s\n", watch_refusal_text(refusal));
        return 1;
    }
    printf("end %" PRIu64 "\n", watch_offset(flow, sizeof flow));
    return 0;
}
