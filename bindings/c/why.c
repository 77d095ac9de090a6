/* Says why a pair is due: the run of the automaton behind it, by watch_why, watch_why_state and watch_edge.
 *
 *     tools/build-c
 *     gcc -std=c11 -Wall -Wextra -Werror -Iinclude bindings/c/why.c target/staticlib/libwatch_c.a -o target/why
 *     target/why examples/two-breakfasts/rules.bin examples/two-breakfasts/twice 9 42 16
 *
 * Those are the commands on x86-64. Elsewhere the compiler is x86_64-linux-gnu-gcc with -static, and qemu-x86_64 stands before the program.
 *
 * Usage: why [-n] RULES FLOW SIGNATURE OFFSET [PIECE]. The flow is fed in pieces of PIECE bytes, 4096 where it is not said, and the record before each
 * piece is kept, as a box does that saves a record now and then. The question is asked of the piece in which the offset lies; why the run's first state
 * is in the frontier there is asked of the piece before it, and so on back to the opening. So no more room than for one piece is needed.
 *
 * It writes the run in words: a line for each byte, with the states, the record of the list that is taken, and the range of bytes that this is for; bytes
 * that loop in one state by one record share a line. With -n it writes numbers alone: a line for each offset from 0 on, the state there, and the record
 * that led to it, - at offset 0. The exit status is 0 where the pair is due, 1 where it is refused, with the number (26: it is not due), and 2 where a
 * file could not be read or the archive is not the header's.
 */
#include <inttypes.h>
#include <stdio.h>
#include <stdlib.h>
#include <string.h>

#include "watch.h"

static void fail(const char *what, const char *name)
{
    fprintf(stderr, "why: cannot %s %s\n", what, name);
    exit(2);
}

/* A file's bytes, and how many there are. */
static uint8_t *bytes_of(const char *name, size_t *length)
{
    FILE *file = fopen(name, "rb");
    if (file == NULL)
        fail("open", name);
    size_t room = 4096, used = 0;
    uint8_t *bytes = malloc(room);
    while (bytes != NULL) {
        used += fread(bytes + used, 1, room - used, file);
        if (used < room)
            break;
        room *= 2;
        bytes = realloc(bytes, room);
    }
    if (bytes == NULL || ferror(file))
        fail("read", name);
    fclose(file);
    *length = used;
    return bytes;
}

static void *room_for(size_t count, size_t size)
{
    void *room = calloc(count == 0 ? 1 : count, size);
    if (room == NULL)
        fail("find", "enough memory");
    return room;
}

static int refused(uint32_t refusal)
{
    printf("refused %" PRIu32 "\n", refusal);
    fprintf(stderr, "why: %s\n", watch_refusal_text(refusal));
    return 1;
}

static uint64_t number(const char *word)
{
    char *end;
    uint64_t value = strtoull(word, &end, 10);
    if (*word < '0' || *word > '9' || *end != 0)
        fail("take for a number", word);
    return value;
}

/* What is asked: a list, a flow's bytes, the records saved before each piece, and how long a piece is. */
struct asked {
    const uint8_t *list;
    size_t list_len;
    const uint8_t *flow;
    size_t flow_len;
    uint8_t (*records)[WATCH_FLOW_SIZE];
    size_t piece;
};

/* Where a piece begins, and how many bytes of it there are. */
static size_t length_at(const struct asked *a, size_t start)
{
    return a->flow_len - start < a->piece ? a->flow_len - start : a->piece;
}

/* Feeds the flow up to the piece in which the offset lies, and keeps the record before each piece. */
static uint32_t save_records(const struct asked *a, size_t pieces)
{
    uint32_t pairs[WATCH_ENOUGH_WORDS];
    watch_opened opened = watch_open(a->list, a->list_len, a->records[0], WATCH_FLOW_SIZE, pairs, WATCH_ENOUGH_WORDS);
    if (opened.refusal != WATCH_PASSED)
        return opened.refusal;
    for (size_t i = 1; i < pieces; i++) {
        size_t at = (i - 1) * a->piece, end = i * a->piece;
        memcpy(a->records[i], a->records[i - 1], WATCH_FLOW_SIZE);
        while (at < end) {
            watch_fed fed = watch_feed(a->list, a->list_len, a->records[i], WATCH_FLOW_SIZE, at, a->flow + at, end - at, pairs, WATCH_ENOUGH_WORDS);
            if (fed.refusal != WATCH_PASSED)
                return fed.refusal;
            at += fed.bytes;
        }
    }
    return WATCH_PASSED;
}

/* Asks backwards, piece by piece: the run's states from 0 to the offset. */
static uint32_t explain(const struct asked *a, size_t pieces, uint32_t signature, uint64_t offset, uint16_t *run, uint8_t *work)
{
    size_t last = pieces - 1, start = last * a->piece;
    uint32_t refusal = watch_why(a->list, a->list_len, a->records[last], WATCH_FLOW_SIZE, start, a->flow + start, length_at(a, start), signature, offset,
                                 run + start, offset - start + 1, work, WATCH_SET_SIZE * (a->piece + 1));
    while (refusal == WATCH_PASSED && start > 0) {
        size_t end = start;
        start -= a->piece;
        /* The state at `end` is where the later run begins; it is written again, the same. */
        refusal = watch_why_state(a->list, a->list_len, a->records[start / a->piece], WATCH_FLOW_SIZE, start, a->flow + start, a->piece, run[end], end,
                                  run + start, a->piece + 1, work, WATCH_SET_SIZE * (a->piece + 1));
    }
    return refusal;
}

static uint64_t record_of(const struct asked *a, const uint16_t *run, uint64_t at)
{
    return watch_edge(a->list, a->list_len, run[at - 1], a->flow[at - 1], run[at]).record;
}

/* A byte for a person: itself where it prints, else its number. */
static void print_byte(uint8_t byte)
{
    if (byte > 32 && byte < 127)
        printf("'%c'", byte);
    else
        printf("0x%02X", byte);
}

/* Bytes from `first` to `last`, which one record takes. */
static void print_step(const struct asked *a, const uint16_t *run, uint64_t first, uint64_t last)
{
    uint64_t place = record_of(a, run, first);
    const uint8_t *record = a->list + WATCH_RECORD_SIZE * place;
    if (first == last) {
        printf("byte %" PRIu64 " ", first);
        print_byte(a->flow[first - 1]);
    } else {
        printf("bytes %" PRIu64 " to %" PRIu64, first, last);
    }
    if (run[first - 1] == run[first])
        printf(": state %u loops", run[first]);
    else
        printf(": state %u to %u", run[first - 1], run[first]);
    printf(", by record %" PRIu64 ", for ", place);
    print_byte(record[1]);
    if (record[1] != record[2]) {
        printf(" to ");
        print_byte(record[2]);
    }
    printf(record[3] == 1 ? " in either case\n" : "\n");
}

static void print_run(const struct asked *a, const uint16_t *run, uint32_t signature, uint64_t offset)
{
    printf("start: state %u\n", run[0]);
    for (uint64_t first = 1, last; first <= offset; first = last + 1) {
        last = first;
        while (last < offset && run[first - 1] == run[first] && run[last + 1] == run[first] && record_of(a, run, last + 1) == record_of(a, run, first))
            last++;
        print_step(a, run, first, last);
    }
    printf("state %u accepts signature %" PRIu32 "\n", run[offset], signature);
}

static void print_numbers(const struct asked *a, const uint16_t *run, uint64_t offset)
{
    printf("%u -\n", run[0]);
    for (uint64_t at = 1; at <= offset; at++)
        printf("%u %" PRIu64 "\n", run[at], record_of(a, run, at));
}

int main(int argc, char **argv)
{
    int numbers = argc > 1 && strcmp(argv[1], "-n") == 0;
    argv += numbers;
    argc -= numbers;
    if (argc != 5 && argc != 6) {
        fprintf(stderr, "usage: why [-n] RULES FLOW SIGNATURE OFFSET [PIECE]\n");
        return 2;
    }
    if (watch_version() != WATCH_VERSION) {
        fprintf(stderr, "why: libwatch_c.a has %" PRIu32 ", and watch.h is %d\n", watch_version(), WATCH_VERSION);
        return 2;
    }
    struct asked a;
    a.list = bytes_of(argv[1], &a.list_len);
    a.flow = bytes_of(argv[2], &a.flow_len);
    uint64_t signature = number(argv[3]), offset = number(argv[4]);
    a.piece = argc == 6 ? (size_t)number(argv[5]) : 4096;
    if (a.piece == 0)
        fail("feed pieces of", "0 bytes");
    if (signature > UINT32_MAX)
        return refused(WATCH_REFUSED_NOT_DUE);
    if (offset > a.flow_len)
        return refused(WATCH_REFUSED_PLACE);
    size_t pieces = offset == 0 ? 1 : (size_t)((offset - 1) / a.piece + 1);
    a.records = room_for(pieces, WATCH_FLOW_SIZE);
    uint16_t *run = room_for((size_t)offset + 1, sizeof *run);
    uint8_t *work = room_for(a.piece + 1, WATCH_SET_SIZE);
    uint32_t refusal = save_records(&a, pieces);
    if (refusal == WATCH_PASSED)
        refusal = explain(&a, pieces, (uint32_t)signature, offset, run, work);
    if (refusal != WATCH_PASSED)
        return refused(refusal);
    if (numbers)
        print_numbers(&a, run, offset);
    else
        print_run(&a, run, (uint32_t)signature, offset);
    return 0;
}
