/* Watches standard input for signature texts: each is compiled, joined to those before it, the whole
 * prepared, and the flow fed by that. A text's signature is its place among the arguments, from 0 on.
 *
 *     tools/build-c
 *     gcc -std=c11 -Wall -Wextra -Werror -Iinclude bindings/c/prepared.c \
 *         target/staticlib/libwatch_c.a -o target/prepared
 *     target/prepared 'RESEND' 'calf[a-z]*' < examples/two-breakfasts/twice
 *
 * A line for each pair, signature and offset, and last `end` and the offset; or `refused` and the
 * number, with exit status 1. The exit status is 2 where there is no text, there are more than
 * signatures, or libwatch_c.a has another version.
 */
#include <inttypes.h>
#include <stdio.h>
#include <string.h>

#include "watch.h"

static uint8_t list[WATCH_MOST_LIST], other[WATCH_MOST_LIST];
static uint8_t splits[WATCH_PREPARE_SPLITS], entries[WATCH_PREPARE_INDEX];
static uint32_t pairs[WATCH_ENOUGH_WORDS];

static void print(uint64_t count)
{
    for (uint64_t i = 0; i < count; i++)
        printf("%" PRIu32 " %" PRIu32 "\n", pairs[2 * i], pairs[2 * i + 1]);
}

static int refused(uint32_t refusal)
{
    fprintf(stderr, "prepared: %s\n", watch_refusal_text(refusal));
    return printf("refused %" PRIu32 "\n", refusal) < 0 ? 2 : 1;
}

int main(int argc, char **argv)
{
    if (argc < 2 || argc > WATCH_SIGNATURES + 1 || watch_version() != WATCH_VERSION) {
        fprintf(stderr, "usage: prepared TEXT..; watch.h has version %d of the face, libwatch_c.a has %" PRIu32 "\n", WATCH_VERSION, watch_version());
        return 2;
    }
    uint64_t used = 0;
    for (int i = 1; i < argc; i++) {
        watch_compiled text = watch_compile((const uint8_t *)argv[i], strlen(argv[i]), (uint8_t)(i - 1), i == 1 ? list : other, sizeof list);
        if (text.refusal != WATCH_PASSED)
            return refused(text.refusal);
        watch_joined joined = { text.length, WATCH_PASSED };
        if (i > 1)
            joined = watch_join(list, sizeof list, used, other, text.length);
        if (joined.refusal != WATCH_PASSED)
            return refused(joined.refusal);
        used = joined.length;
    }
    watch_made made = watch_prepare(list, used, splits, sizeof splits, entries, sizeof entries);
    if (made.refusal != WATCH_PASSED)
        return refused(made.refusal);

    uint8_t flow[WATCH_FLOW_SIZE], piece[4096];
    uint64_t offset = 0;
    uint32_t split = 0;
    print(watch_open(list, used, flow, sizeof flow, pairs, WATCH_ENOUGH_WORDS).pairs);
    for (size_t got; (got = fread(piece, 1, sizeof piece, stdin)) != 0;)
        for (size_t at = 0; at < got;) {
            watch_stood stood = watch_prepared_feed(splits, made.splits, entries, made.index, split, flow, sizeof flow, offset,
                                                    piece + at, got - at, pairs, WATCH_ENOUGH_WORDS);
            if (stood.refusal != WATCH_PASSED)
                return refused(stood.refusal);
            print(stood.pairs);
            split = stood.split;
            at += stood.bytes;
            offset += stood.bytes;
        }
    printf("end %" PRIu64 "\n", offset);
    return 0;
}
