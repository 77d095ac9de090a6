/* Watches a flow by the list of examples/two-breakfasts, as the program does, over the C face.
 *
 *     tools/build-c
 *     gcc -std=c11 -Wall -Wextra -Werror -Iinclude bindings/c/breakfast.c target/staticlib/libwatch_c.a -o target/breakfast
 *     target/breakfast examples/two-breakfasts/twice
 *
 * Those are the commands on x86-64. Elsewhere the compiler is x86_64-linux-gnu-gcc with -static, and qemu-x86_64 stands before the program.
 *
 * Usage: breakfast FLOW [RULES]. Writes a line for each pair, signature and offset, and last `end` and the offset, or `refused` and the number.
 * It goes about it in the most awkward way that a device may have to:
 *
 *   - the flow arrives in pieces of 7 bytes;
 *   - between pieces the flow record is saved to a file and loaded again, as if the box had been switched off;
 *   - the buffer for pairs begins with a single word, which is no room at all, so the feed pauses at each byte that tells a
 *     pair. The rest of the piece is then fed from its middle, and where not a byte was consumed, with a larger room. So is a flow opened
 *     again whose list tells pairs at once.
 *
 * How many pieces, pauses and saved records there were goes to standard error, and so does the sentence of a refusal. The exit status is 0
 * where the flow ended, 1 where it was refused, 2 where a file could not be read or the archive is not the header's.
 */
#include <inttypes.h>
#include <stdio.h>
#include <stdlib.h>

#include "watch.h"

/* Bytes of a piece. */
enum { PIECE = 7 };

static unsigned pieces, pauses, saves;

static void fail(const char *what, const char *name)
{
    fprintf(stderr, "breakfast: cannot %s %s\n", what, name);
    exit(2);
}

static FILE *opened(const char *name)
{
    FILE *file = fopen(name, "rb");
    if (file == NULL)
        fail("open", name);
    return file;
}

/* Writes the last line of a flow that is refused: the number, and to standard error its sentence. Answers the exit status. */
static int refused(uint32_t refusal)
{
    printf("refused %" PRIu32 "\n", refusal);
    fprintf(stderr, "breakfast: %s\n", watch_refusal_text(refusal));
    return 1;
}

/* Writes the flow record to the file and forgets it; then reads it back. */
static void save_and_load(FILE *disk, uint8_t flow[WATCH_FLOW_SIZE])
{
    rewind(disk);
    if (fwrite(flow, 1, WATCH_FLOW_SIZE, disk) != WATCH_FLOW_SIZE || fflush(disk) != 0)
        fail("write", "the record");
    for (int i = 0; i < WATCH_FLOW_SIZE; i++)
        flow[i] = 0xEE;
    rewind(disk);
    if (fread(flow, 1, WATCH_FLOW_SIZE, disk) != WATCH_FLOW_SIZE)
        fail("read", "the record");
    saves++;
}

/* A larger room. */
static size_t more(size_t words)
{
    return 2 * words + 1 < WATCH_ENOUGH_WORDS ? 2 * words + 1 : WATCH_ENOUGH_WORDS;
}

static void print(const uint32_t *pairs, uint64_t count)
{
    for (uint64_t i = 0; i < count; i++)
        printf("%" PRIu32 " %" PRIu32 "\n", pairs[2 * i], pairs[2 * i + 1]);
}

/* Opens a flow and prints the pairs of offset 0. Answers the refusal, or WATCH_PASSED. */
static uint32_t open_flow(const uint8_t *list, size_t list_len, uint8_t *flow)
{
    uint32_t pairs[WATCH_ENOUGH_WORDS];
    size_t words = 1;
    for (;;) {
        watch_opened opened = watch_open(list, list_len, flow, WATCH_FLOW_SIZE, pairs, words);
        print(pairs, opened.pairs);
        if (opened.refusal != WATCH_REFUSED_NO_ROOM)
            return opened.refusal;
        /* With WATCH_ENOUGH_WORDS there is always room, so this ends. */
        words = more(words);
    }
}

/* Feeds a whole piece that begins at `start`, whatever pauses it takes, and prints its pairs. Answers the refusal, or WATCH_PASSED. */
static uint32_t feed_piece(const uint8_t *list, size_t list_len, uint8_t *flow, uint64_t start,
                           const uint8_t *piece, size_t piece_len)
{
    uint32_t pairs[WATCH_ENOUGH_WORDS];
    size_t words = 1;
    for (;;) {
        watch_fed fed = watch_feed(list, list_len, flow, WATCH_FLOW_SIZE, start, piece, piece_len, pairs, words);
        print(pairs, fed.pairs);
        if (fed.refusal != WATCH_PASSED)
            return fed.refusal;
        if (fed.all)
            return WATCH_PASSED;
        pauses++;
        /* A feed that stood still gets more room. With WATCH_ENOUGH_WORDS none does, so this ends. */
        words = fed.bytes == 0 ? more(words) : 1;
        start += fed.bytes;
        piece += fed.bytes;
        piece_len -= fed.bytes;
    }
}

int main(int argc, char **argv)
{
    if (argc != 2 && argc != 3) {
        fprintf(stderr, "usage: breakfast FLOW [RULES]\n");
        return 2;
    }
    if (watch_version() != WATCH_VERSION) {
        fprintf(stderr, "breakfast: watch.h has version %d of the face, libwatch_c.a has %" PRIu32 "\n", WATCH_VERSION, watch_version());
        return 2;
    }
    const char *rules = argc == 3 ? argv[2] : "examples/two-breakfasts/rules.bin";

    /* One byte more than the longest list shows that a list is too long. */
    static uint8_t list[WATCH_MOST_LIST + 1];
    FILE *file = opened(rules);
    size_t list_len = fread(list, 1, sizeof list, file);
    fclose(file);

    uint8_t flow[WATCH_FLOW_SIZE];
    uint32_t refusal = open_flow(list, list_len, flow);
    if (refusal != WATCH_PASSED)
        return refused(refusal);

    FILE *disk = tmpfile();
    if (disk == NULL)
        fail("make", "a file for the record");
    file = opened(argv[1]);
    uint8_t piece[PIECE];
    uint64_t offset = 0;
    size_t piece_len;
    while ((piece_len = fread(piece, 1, sizeof piece, file)) != 0) {
        save_and_load(disk, flow);
        pieces++;
        refusal = feed_piece(list, list_len, flow, offset, piece, piece_len);
        if (refusal != WATCH_PASSED)
            break;
        offset += piece_len;
    }
    fclose(file);
    fclose(disk);
    fprintf(stderr, "breakfast: %u pieces, %u pauses, %u records saved\n", pieces, pauses, saves);
    if (refusal != WATCH_PASSED)
        return refused(refusal);
    printf("end %" PRIu64 "\n", offset);
    return 0;
}
