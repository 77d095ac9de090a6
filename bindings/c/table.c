/* Builds the table of a list in the box, fills its index, and watches a flow by that: the whole way from rules.bin to the pairs, over the C face.
 *
 *     tools/build-c
 *     gcc -std=c11 -Wall -Wextra -Werror -Iinclude bindings/c/table.c target/staticlib/libwatch_c.a -o target/table
 *     target/table examples/two-breakfasts/rules.bin examples/two-breakfasts/twice
 *
 * Those are the commands on x86-64. Elsewhere the compiler is x86_64-linux-gnu-gcc with -static, and qemu-x86_64 stands before the program.
 *
 * Usage: table RULES [FLOW [FOLDER]]. How many sets can be reached, how many classes there are and how many bytes each list and the index take goes to
 * standard error. With a flow it writes a line for each pair, signature and offset, and last `end` and the offset, as the program does; or `refused` and
 * the number. With a folder it writes the four lists there, as classes.bin, parts.bin, rows.bin and splits.bin, each whole in place of the old one; an
 * empty FLOW is passed over. Where there are more sets or classes than a table has, it counts those that are needed.
 *
 * The table that was built needs no check: the filler of the index makes it all the same, and passes. List, classes, parts and rows are not looked at once
 * the index is there. The exit status is 0 where the table was built and the flow ended, 1 where one was refused, 2 where a file could not be read or
 * written or the archive is not the header's.
 */
#define _POSIX_C_SOURCE 200809L

#include <inttypes.h>
#include <stdio.h>
#include <stdlib.h>
#include <string.h>

#include "watch.h"
#include "whole.h"

/* Bytes of a piece, and the most sets that are counted where there are too many. */
enum { PIECE = 4096, MOST_COUNTED = 16384, PLACES = 4 * MOST_COUNTED };

/* The list, with one byte more than the longest has: that shows that a list is too long. */
static uint8_t list[WATCH_MOST_LIST + 1];
static size_t list_len;

/* The four lists that the table is built in. */
static uint8_t classes[WATCH_LENT_CLASSES], parts[WATCH_LENT_PARTS], rows[WATCH_LENT_ROWS], splits[WATCH_LENT_SPLITS];
static watch_built built;

/* Its index: a table that is built has a split for each part. */
static uint8_t table_index[WATCH_INDEX_SIZE(WATCH_MOST_PARTS)];
static size_t index_len;

static void fail(const char *what, const char *name)
{
    fprintf(stderr, "table: cannot %s %s\n", what, name);
    exit(2);
}

static FILE *opened(const char *name, const char *mode)
{
    FILE *file = fopen(name, mode);
    if (file == NULL)
        fail("open", name);
    return file;
}

/* Writes the last line where something is refused: the number, and to standard error its sentence. Answers the exit status. */
static int refused(uint32_t refusal)
{
    printf("refused %" PRIu32 "\n", refusal);
    fprintf(stderr, "table: %s\n", watch_refusal_text(refusal));
    return 1;
}

/* What a table needs, counted where there is too much of it: the matrix of the list, the first byte of each class, and the sets. */
static uint8_t *matrix, firsts[WATCH_BYTE_VALUES], (*sets)[WATCH_SET_SIZE];
static size_t states, class_count, set_count;
static uint32_t places[PLACES];

static unsigned get(const uint8_t *at) { return at[0] + 256u * at[1]; }

/* Whether every state steps alike on two bytes. */
static bool alike(unsigned one, unsigned other)
{
    for (size_t s = 0; s < states; s++)
        if (memcmp(matrix + s * WATCH_ROW_SIZE + one * WATCH_SET_SIZE, matrix + s * WATCH_ROW_SIZE + other * WATCH_SET_SIZE, WATCH_SET_SIZE) != 0)
            return false;
    return true;
}

static void count_classes(void)
{
    for (unsigned byte = 0; byte < WATCH_BYTE_VALUES; byte++) {
        size_t k = 0;
        while (k < class_count && !alike(firsts[k], byte))
            k++;
        if (k == class_count)
            firsts[class_count++] = (uint8_t)byte;
    }
}

/* Puts a set with those that are reached, where it is new. */
static void reach(const uint8_t *set)
{
    uint32_t at = 2166136261u;
    for (int i = 0; i < WATCH_SET_SIZE; i++)
        at = (at ^ set[i]) * 16777619u;
    for (at %= PLACES; places[at] != 0; at = (at + 1) % PLACES)
        if (memcmp(sets[places[at] - 1], set, WATCH_SET_SIZE) == 0)
            return;
    memcpy(sets[set_count], set, WATCH_SET_SIZE);
    places[at] = (uint32_t)++set_count;
}

/* The automaton's step of a set on a byte. */
static void step(const uint8_t *set, uint8_t byte, uint8_t *next)
{
    memset(next, 0, WATCH_SET_SIZE);
    for (size_t s = 0; s < states; s++)
        if (set[s / 8] >> s % 8 & 1)
            for (int i = 0; i < WATCH_SET_SIZE; i++)
                next[i] |= matrix[s * WATCH_ROW_SIZE + byte * WATCH_SET_SIZE + (size_t)i];
}

static void count_sets(void)
{
    uint8_t set[WATCH_SET_SIZE] = { 0 };
    for (const uint8_t *at = list; at < list + list_len; at += WATCH_RECORD_SIZE)
        if (at[0] == 2)
            set[get(at + 6) / 8] |= (uint8_t)(1 << get(at + 6) % 8);
    reach(set);
    for (size_t done = 0; done < set_count; done++)
        for (size_t k = 0; k < class_count && set_count < MOST_COUNTED; k++) {
            step(sets[done], firsts[k], set);
            reach(set);
        }
}

/* Says how many sets and classes a list needs that has too many for a table, and what to try. */
static void say_needs(void)
{
    states = 1;
    for (const uint8_t *at = list; at < list + list_len; at += WATCH_RECORD_SIZE) {
        size_t source = at[0] == 2 ? 0 : get(at + 4), target = at[0] == 3 ? 0 : get(at + 6);
        states = source >= states ? source + 1 : states;
        states = target >= states ? target + 1 : states;
    }
    matrix = malloc(states * WATCH_ROW_SIZE);
    sets = malloc(MOST_COUNTED * sizeof *sets);
    if (matrix == NULL || sets == NULL || watch_fill_matrix(list, list_len, matrix, states * WATCH_ROW_SIZE) != WATCH_PASSED)
        return;
    count_classes();
    count_sets();
    fprintf(stderr, "table: %s%zu sets can be reached and %zu classes are needed, and a table has at most %d and %d\n",
            set_count < MOST_COUNTED ? "" : "at least ", set_count, class_count, WATCH_MOST_PARTS, WATCH_MOST_CLASS + 1);
    if (set_count > WATCH_MOST_PARTS)
        fprintf(stderr, "table: fewer signatures in a list need fewer sets, and so do shorter gaps of any bytes between words\n");
    if (class_count > WATCH_MOST_CLASS + 1)
        fprintf(stderr, "table: fewer bytes that lead apart need fewer classes, as a range of all digits in place of some\n");
    fprintf(stderr, "table: the plain feed and the matrix need no table (docs/engines.md)\n");
}

/* Writes one list of the table to a file of the folder. */
static void keep(const char *folder, const char *name, const uint8_t *bytes, uint64_t length)
{
    char path[4096];
    if (snprintf(path, sizeof path, "%s/%s.bin", folder, name) >= (int)sizeof path)
        fail("name a file in", folder);
    FILE *file = whole_begin(path);
    if (file == NULL)
        fail("write", path);
    fwrite(bytes, 1, length, file);
    if (!whole_end(file, path) || !whole_put(path))
        fail("write", path);
}

static void print(const uint32_t *pairs, uint64_t count)
{
    for (uint64_t i = 0; i < count; i++)
        printf("%" PRIu32 " %" PRIu32 "\n", pairs[2 * i], pairs[2 * i + 1]);
}

/* Feeds a whole piece by the index and prints its pairs; `split` is where the flow stands, before and after. Answers the refusal, or WATCH_PASSED. */
static uint32_t feed_piece(uint8_t *flow, uint32_t *split, uint64_t start, const uint8_t *piece, size_t piece_len)
{
    uint32_t pairs[WATCH_ENOUGH_WORDS];
    for (;;) {
        watch_stood stood = watch_prepared_feed(splits, built.splits, table_index, index_len, *split,
                                                flow, WATCH_FLOW_SIZE, start, piece, piece_len, pairs, WATCH_ENOUGH_WORDS);
        print(pairs, stood.pairs);
        *split = stood.split;
        if (stood.refusal != WATCH_PASSED || stood.all)
            return stood.refusal;
        start += stood.bytes;
        piece += stood.bytes;
        piece_len -= stood.bytes;
    }
}

/* Opens a flow, and feeds it a file. Answers the exit status. */
static int watch_file(const char *name)
{
    uint8_t flow[WATCH_FLOW_SIZE], piece[PIECE];
    uint32_t pairs[WATCH_ENOUGH_WORDS];
    watch_opened begun = watch_open(list, list_len, flow, sizeof flow, pairs, WATCH_ENOUGH_WORDS);
    if (begun.refusal != WATCH_PASSED)
        return refused(begun.refusal);
    print(pairs, begun.pairs);
    FILE *file = opened(name, "rb");
    uint64_t offset = 0;
    uint32_t split = 0;
    size_t piece_len;
    while ((piece_len = fread(piece, 1, sizeof piece, file)) != 0) {
        uint32_t refusal = feed_piece(flow, &split, offset, piece, piece_len);
        if (refusal != WATCH_PASSED)
            return refused(refusal);
        offset += piece_len;
    }
    fclose(file);
    printf("end %" PRIu64 "\n", offset);
    return 0;
}

int main(int argc, char **argv)
{
    if (argc < 2 || argc > 4) {
        fprintf(stderr, "usage: table RULES [FLOW [FOLDER]]\n");
        return 2;
    }
    if (watch_version() != WATCH_VERSION) {
        fprintf(stderr, "table: watch.h has version %d of the face, libwatch_c.a has %" PRIu32 "\n", WATCH_VERSION, watch_version());
        return 2;
    }
    FILE *file = opened(argv[1], "rb");
    list_len = fread(list, 1, sizeof list, file);
    fclose(file);

    built = watch_build(list, list_len, classes, sizeof classes, parts, sizeof parts, rows, sizeof rows, splits, sizeof splits);
    if (built.refusal == WATCH_REFUSED_TOO_MANY)
        say_needs();
    if (built.refusal != WATCH_PASSED)
        return refused(built.refusal);
    uint64_t parts_count = built.parts / WATCH_SET_SIZE;
    index_len = WATCH_INDEX_SIZE(parts_count);
    fprintf(stderr, "table: %" PRIu64 " sets, %" PRIu64 " classes; classes %" PRIu64 ", parts %" PRIu64 ", rows %" PRIu64 ", splits %" PRIu64 ", index %zu bytes\n",
            parts_count, built.rows / WATCH_SET_SIZE / parts_count, built.classes, built.parts, built.rows, built.splits, index_len);
    uint32_t refusal = watch_fill_index(list, list_len, 1, classes, built.classes, parts, built.parts, rows, built.rows, splits, built.splits,
                                        table_index, index_len);
    if (refusal != WATCH_PASSED)
        return refused(refusal);
    if (argc == 4) {
        keep(argv[3], "classes", classes, built.classes);
        keep(argv[3], "parts", parts, built.parts);
        keep(argv[3], "rows", rows, built.rows);
        keep(argv[3], "splits", splits, built.splits);
    }
    return argc > 2 && argv[2][0] != '\0' ? watch_file(argv[2]) : 0;
}
