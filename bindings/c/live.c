/* Watches a live line over the C face, and goes on where it was after being killed at any time.
 *
 *     tools/build-c
 *     gcc -std=c11 -Wall -Wextra -Werror -Iinclude bindings/c/live.c target/staticlib/libwatch_c.a -o target/live
 *     target/live examples/two-breakfasts/rules.bin examples/two-breakfasts/twice target/record target/lines
 *
 * Those are the commands on x86-64. Elsewhere the compiler is x86_64-linux-gnu-gcc with -static, and qemu-x86_64 stands before the program.
 *
 * Usage: live RULES LINE RECORD LINES. LINE is a file, a pipe or a device that is read with read(2), so each piece is what has come, and a pair
 * is told as soon as its last byte is there. Lines go to the file LINES: signature and offset of each pair, and last `end` and the offset, or
 * `refused` and the number. After the opening and after each feed the lines are written, and then the flow record is saved in the file RECORD.
 *
 * So the record never runs ahead of the lines, and the lines run ahead of it by one opening or feed at most. At a start with a saved record the lines past
 * its offset are cut off, and the input is read again from that offset: LINE is moved there, and where it can't be moved the sender
 * has to begin there; the offset is said on standard error. LINES is then what one run would have written. Who acts on a line as it is
 * written keeps the offset of the last one and passes over those up to it. Without a saved record the flow begins at 0, and LINES is emptied. A
 * record belongs to the list that it was saved under: with another list, take another file.
 *
 * The exit status is 0 where the line ended, 1 where it was refused, 2 where a file could not be opened, read or written, or where the
 * archive is not the header's.
 *
 * With -DKILLED the program ends itself, as if killed, before the step whose number is in the variable KILLED, and writes and reads a few bytes
 * at a time: tools/test-outside kills it at every step so.
 */
#define _POSIX_C_SOURCE 200809L
#include <errno.h>
#include <fcntl.h>
#include <inttypes.h>
#include <signal.h>
#include <stdio.h>
#include <stdlib.h>
#include <string.h>
#include <unistd.h>

#include "watch.h"

/* The most bytes of a piece and of a write; and what happens before each step that is seen from outside. */
#ifdef KILLED
enum { PIECE = 5, AT_ONCE = 1 };
static void step(void)
{
    static long steps;
    const char *last = getenv("KILLED");
    if (last != NULL && steps++ == atol(last))
        raise(SIGKILL);
}
#else
enum { PIECE = 4096, AT_ONCE = 4096 };
static void step(void) {}
#endif

static void fail(const char *what, const char *name)
{
    fprintf(stderr, "live: cannot %s %s: %s\n", what, name, strerror(errno));
    exit(2);
}

static int opened(const char *name, int flags)
{
    int file = open(name, flags, 0666);
    if (file < 0)
        fail("open", name);
    return file;
}

/* Reads what has come, `most` bytes at most; 0 at the end. */
static size_t read_some(int file, const char *name, void *bytes, size_t most)
{
    ssize_t n;
    do
        n = read(file, bytes, most);
    while (n < 0 && errno == EINTR);
    if (n < 0)
        fail("read", name);
    return (size_t)n;
}

/* Reads to the end, or until `most` bytes are there. */
static size_t read_whole(int file, const char *name, uint8_t *bytes, size_t most)
{
    size_t len = 0, n;
    while (len < most && (n = read_some(file, name, bytes + len, most - len)) != 0)
        len += n;
    return len;
}

/* Writes all of the bytes and waits until they are on the disk. */
static void write_whole(int file, const char *name, const void *bytes, size_t len)
{
    const uint8_t *from = bytes;
    while (len != 0) {
        step();
        ssize_t n = write(file, from, len < AT_ONCE ? len : AT_ONCE);
        if (n < 0 && errno != EINTR)
            fail("write", name);
        if (n > 0) {
            from += n;
            len -= (size_t)n;
        }
    }
    step();
    if (fsync(file) != 0 && errno != EINVAL)
        fail("write", name);
}

/* Saves the record: a new file takes the place of the old one whole, or not at all. */
static void save(const char *name, const uint8_t flow[WATCH_FLOW_SIZE])
{
    char fresh[4096];
    if ((size_t)snprintf(fresh, sizeof fresh, "%s.new", name) >= sizeof fresh)
        fail("name a file beside", name);
    int file = opened(fresh, O_WRONLY | O_CREAT | O_TRUNC);
    write_whole(file, fresh, flow, WATCH_FLOW_SIZE);
    close(file);
    step();
    if (rename(fresh, name) != 0)
        fail("write", name);
    step();
}

/* Loads the saved record; false where there is none. One of another length is an error. */
static bool load(const char *name, uint8_t flow[WATCH_FLOW_SIZE])
{
    uint8_t bytes[WATCH_FLOW_SIZE + 1];
    int file = open(name, O_RDONLY);
    if (file < 0 && errno == ENOENT)
        return false;
    if (file < 0)
        fail("open", name);
    size_t len = read_whole(file, name, bytes, sizeof bytes);
    close(file);
    if (len != WATCH_FLOW_SIZE) {
        fprintf(stderr, "live: %s is no flow record\n", name);
        exit(2);
    }
    memcpy(flow, bytes, WATCH_FLOW_SIZE);
    return true;
}

/* The offset of a record: the bytes that it has consumed. */
static uint64_t offset_of(const uint8_t flow[WATCH_FLOW_SIZE])
{
    uint64_t offset = 0;
    for (int i = 3; i >= 0; i--)
        offset = offset << 8 | flow[WATCH_OFFSET_AT + i];
    return offset;
}

/* Opens the file of lines and cuts off what is not below an offset: from the first line on that is no whole pair or has another one. */
static int cut_lines(const char *name, uint64_t offset)
{
    int file = opened(name, O_RDWR | O_CREAT);
    FILE *lines = fdopen(dup(file), "r");
    if (lines == NULL)
        fail("read", name);
    off_t kept = 0;
    char line[64], end;
    uint32_t signature, told;
    while (fgets(line, sizeof line, lines) != NULL
           && sscanf(line, "%" SCNu32 " %" SCNu32 "%c", &signature, &told, &end) == 3 && end == '\n' && told < offset)
        kept += (off_t)strlen(line);
    fclose(lines);
    step();
    if (ftruncate(file, kept) != 0 || lseek(file, kept, SEEK_SET) != kept)
        fail("cut", name);
    return file;
}

/* Writes the lines of some pairs. */
static void tell(int lines, const char *name, const uint32_t *pairs, uint64_t count)
{
    char text[WATCH_SIGNATURES * 24];
    size_t len = 0;
    for (uint64_t i = 0; i < count; i++)
        len += (size_t)sprintf(text + len, "%" PRIu32 " %" PRIu32 "\n", pairs[2 * i], pairs[2 * i + 1]);
    write_whole(lines, name, text, len);
}

/* Writes the last line. */
static void tell_last(int lines, const char *name, const char *word, uint64_t number)
{
    char text[64];
    write_whole(lines, name, text, (size_t)sprintf(text, "%s %" PRIu64 "\n", word, number));
}

static int refused(int lines, const char *name, uint32_t refusal)
{
    tell_last(lines, name, "refused", refusal);
    fprintf(stderr, "live: %s\n", watch_refusal_text(refusal));
    return 1;
}

int main(int argc, char **argv)
{
    if (argc != 5) {
        fprintf(stderr, "usage: live RULES LINE RECORD LINES\n");
        return 2;
    }
    if (watch_version() != WATCH_VERSION) {
        fprintf(stderr, "live: watch.h has version %d of the face, libwatch_c.a has %" PRIu32 "\n", WATCH_VERSION, watch_version());
        return 2;
    }
    const char *rules = argv[1], *record = argv[3], *told = argv[4];
    /* One byte more than the longest list shows that a list is too long. */
    static uint8_t list[WATCH_MOST_LIST + 1];
    size_t list_len = read_whole(opened(rules, O_RDONLY), rules, list, sizeof list);

    uint8_t flow[WATCH_FLOW_SIZE], piece[PIECE];
    uint32_t pairs[WATCH_ENOUGH_WORDS];
    bool saved = load(record, flow);
    uint64_t start = saved ? offset_of(flow) : 0;
    /* The lines that belong to the record are those up to its offset; without a record none does. */
    int lines = cut_lines(told, saved ? start + 1 : 0);
    watch_opened opening = {0, WATCH_PASSED};
    if (saved) /* a feed of no bytes changes nothing and refuses what any feed would */
        opening.refusal = watch_feed(list, list_len, flow, sizeof flow, start, piece, 0, pairs, 0).refusal;
    else
        opening = watch_open(list, list_len, flow, sizeof flow, pairs, WATCH_ENOUGH_WORDS);
    if (opening.refusal != WATCH_PASSED)
        return refused(lines, told, opening.refusal);
    if (!saved) {
        tell(lines, told, pairs, opening.pairs);
        save(record, flow);
    }

    int line = opened(argv[2], O_RDONLY);
    if (start != 0 && lseek(line, (off_t)start, SEEK_SET) < 0)
        fprintf(stderr, "live: the line has to begin at byte %" PRIu64 "\n", start);
    for (size_t len; (len = read_some(line, argv[2], piece, sizeof piece)) != 0;) {
        /* Each feed of a piece consumes a byte at least; where its pairs were too many, the rest is fed from its middle. */
        for (size_t done = 0; done != len;) {
            watch_fed fed = watch_feed(list, list_len, flow, sizeof flow, start, piece + done, len - done, pairs, WATCH_ENOUGH_WORDS);
            if (fed.refusal != WATCH_PASSED)
                return refused(lines, told, fed.refusal);
            tell(lines, told, pairs, fed.pairs);
            save(record, flow);
            done += fed.bytes;
            start += fed.bytes;
        }
    }
    tell_last(lines, told, "end", start);
    return 0;
}
