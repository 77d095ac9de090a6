/* Watches a flow by a small automaton with bits and counters that a stranger made, once its certificate shows that it tells the pairs of our own list.
 *
 *     tools/build-c
 *     gcc -std=c11 -Wall -Wextra -Werror -Iinclude bindings/c/certified.c target/staticlib/libwatch_c.a -o target/certified
 *     target/certified examples/long-line examples/long-line/long
 *
 * Those are the commands on x86-64. Elsewhere the compiler is x86_64-linux-gnu-gcc with -static, and qemu-x86_64 stands before the program.
 *
 * Usage: certified FOLDER [FLOW]. The folder has our list, rules.bin, and what came with the automaton: moves.bin, programs.bin and certificate.bin. It
 * writes a line for each pair, signature and offset, and last `end` and the offset; or `refused` and the number. Where the certificate is refused
 * nothing is fed. It is checked once; the list is not looked at after that. Without FLOW it writes `passed` where the certificate passes, and ends.
 *
 * certified --alone FOLDER FLOW runs the automaton as it stands: neither list nor certificate is looked at. tools/counters calls this program.
 *
 * The exit status is 0 where the flow ended or the certificate passed, 1 where something was refused, 2 where a file could not be read or the archive is
 * not the header's.
 */
#include <inttypes.h>
#include <stdbool.h>
#include <stdio.h>
#include <stdlib.h>
#include <string.h>

#include "watch.h"

/* Bytes of a piece. */
enum { PIECE = 4096 };

/* The four files, each with one byte more than the longest has: that shows that one is too long. */
static uint8_t list[WATCH_MOST_LIST + 1], moves[WATCH_X_STATES * WATCH_X_MOVES_SIZE + 1], programs[WATCH_X_STATES * WATCH_X_PROGRAM_SIZE + 1],
    certificate[WATCH_MOST_NOTES * WATCH_NOTE_SIZE + 1];

static FILE *opened(const char *name)
{
    FILE *file = fopen(name, "rb");
    if (file == NULL) {
        fprintf(stderr, "certified: cannot open %s\n", name);
        exit(2);
    }
    return file;
}

static void closed(FILE *file, const char *name)
{
    if (ferror(file)) {
        fprintf(stderr, "certified: cannot read %s\n", name);
        exit(2);
    }
    fclose(file);
}

/* Reads a file of the folder; answers its length. */
static size_t load(const char *folder, const char *name, uint8_t *bytes, size_t size)
{
    char path[4096];
    if (snprintf(path, sizeof path, "%s/%s.bin", folder, name) >= (int)sizeof path)
        exit(2);
    FILE *file = opened(path);
    size_t length = fread(bytes, 1, size, file);
    closed(file, path);
    return length;
}

/* Writes the last line where something is refused: the number, and to standard error its sentence. Answers the exit status. */
static int refused(uint32_t refusal)
{
    printf("refused %" PRIu32 "\n", refusal);
    fprintf(stderr, "certified: %s\n", watch_refusal_text(refusal));
    return 1;
}

static void print(const uint32_t *pairs, uint64_t count)
{
    for (uint64_t i = 0; i < count; i++)
        printf("%" PRIu32 " %" PRIu32 "\n", pairs[2 * i], pairs[2 * i + 1]);
}

/* Opens a flow of the automaton, and feeds it a file; what had no room is fed again. Answers the exit status. */
static int watch_file(size_t moves_len, size_t programs_len, const char *name)
{
    uint8_t flow[WATCH_X_FLOW_SIZE], piece[PIECE];
    uint32_t pairs[WATCH_ENOUGH_WORDS];
    watch_opened begun = watch_x_open(moves, moves_len, programs, programs_len, flow, sizeof flow, pairs, WATCH_ENOUGH_WORDS);
    if (begun.refusal != WATCH_PASSED)
        return refused(begun.refusal);
    print(pairs, begun.pairs);
    FILE *file = opened(name);
    uint64_t offset = 0;
    size_t piece_len;
    while ((piece_len = fread(piece, 1, sizeof piece, file)) != 0) {
        for (size_t at = 0; at < piece_len;) {
            watch_fed fed = watch_x_feed(moves, moves_len, programs, programs_len, flow, sizeof flow,
                                         offset, piece + at, piece_len - at, pairs, WATCH_ENOUGH_WORDS);
            if (fed.refusal != WATCH_PASSED)
                return refused(fed.refusal);
            print(pairs, fed.pairs);
            at += fed.bytes;
            offset += fed.bytes;
        }
    }
    closed(file, name);
    printf("end %" PRIu64 "\n", offset);
    return 0;
}

int main(int argc, char **argv)
{
    bool alone = argc == 4 && strcmp(argv[1], "--alone") == 0;
    if (argc != 2 && argc != 3 && !alone) {
        fprintf(stderr, "usage: certified FOLDER [FLOW] | --alone FOLDER FLOW\n");
        return 2;
    }
    if (watch_version() != WATCH_VERSION) {
        fprintf(stderr, "certified: watch.h has version %d of the face, libwatch_c.a has %" PRIu32 "\n", WATCH_VERSION, watch_version());
        return 2;
    }
    const char *folder = argv[alone ? 2 : 1], *flow = argv[alone ? 3 : 2];
    size_t moves_len = load(folder, "moves", moves, sizeof moves);
    size_t programs_len = load(folder, "programs", programs, sizeof programs);
    if (!alone) {
        size_t list_len = load(folder, "rules", list, sizeof list);
        size_t certificate_len = load(folder, "certificate", certificate, sizeof certificate);
        uint32_t refusal = watch_check_certificate(list, list_len, moves, moves_len, programs, programs_len, certificate, certificate_len);
        if (refusal != WATCH_PASSED)
            return refused(refusal);
    }
    if (flow == NULL) {
        printf("passed\n");
        return 0;
    }
    return watch_file(moves_len, programs_len, flow);
}
