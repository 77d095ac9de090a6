/* watch.h: the C face of the signature matcher.
 *
 * A signature list is an automaton. A flow of bytes is fed to it in pieces, and each time that a
 * signature ends the caller gets a pair: the number of the signature and the offset at which it
 * ends. Link libwatch_c.a, which tools/build-c makes in target/staticlib; it needs no other library
 * than C's. bindings/c/breakfast.c is a whole program over it, and bindings/c/live.c one for a live
 * line, which goes on from a saved record after being killed.
 *
 * The functions keep nothing between calls and call nothing outside the archive but memset and
 * memcpy: no memory is allocated, no file is read. All that a flow needs is in its record, which
 * the caller keeps, copies, writes to a disk or hands to another process as it likes.
 *
 * Header and archive belong together. WATCH_VERSION is the header's version and watch_version() the
 * archive's; compare them once at the start, as bindings/c/breakfast.c does. The number rises with
 * each change of a name, a size, a limit or a meaning here; CHANGELOG.md says what each one
 * changes.
 *
 *
 * FORMATS
 *
 * The sizes and limits have names that begin with WATCH_. Their numbers stand below this text.
 *
 * Numbers of more than one byte have the low byte first.
 *
 * A set is WATCH_SET_SIZE bytes: state s is bit s mod 8 (bit 0 is worth 1) of byte s div 8.
 *
 * The signature list is 1 to WATCH_MOST_RECORDS records of WATCH_RECORD_SIZE bytes, in any order,
 * repeats allowed. States are the numbers below WATCH_STATES, signatures those below
 * WATCH_SIGNATURES.
 *
 *     byte 0      bytes 1 to 7
 *     1, edge     1 low, 2 high, 3 zero or 1, 4-5 from, 6-7 to: taken on byte c when low <= c <=
 *                 high; where byte 3 is 1 also when that holds of c with ASCII letter case
 *                 exchanged (41 to 5A in hex plus 20, 61 to 7A less 20, any other byte as it is)
 *     2, start    1-5 zero, 6-7 state
 *     3, accept   1-3 zero, 4-5 state, 6-7 signature
 *
 * At least one start record; accept records may be missing. A state may accept several signatures.
 *
 * The flow record is WATCH_FLOW_SIZE bytes: the frontier, a set; from byte WATCH_OFFSET_AT on the
 * offset, 4 bytes; from WATCH_RESERVED_AT on 4 zeros; from WATCH_ROWS_AT on the rows read, 8 bytes.
 * The offset is the number of bytes consumed since the opening, at most WATCH_MOST_OFFSET. Rows
 * read counts the work: the plain feed adds, for each byte consumed, the number of states in the
 * frontier before it; the split feed adds the slots that it took. A record that was saved under
 * another list and holds states alone that this list names is not told from a good one; it is run
 * as it stands. No record that was opened on the list and fed by the plain feed or through tables
 * that pass the check holds another.
 *
 * Pairs are 32-bit words in the machine's own order: signature, offset, signature, offset and so
 * on, by offset, then by signature. Each is told once. The pair (g, k) is due when the frontier
 * after k bytes of the flow, k from 0 on, holds a state that accepts g. Those of offset 0 are told
 * by opening, the others by the feeds.
 *
 * A split table is four lists and a bound of 1 to WATCH_MOST_BOUND:
 *
 *     classes     exactly WATCH_BYTE_VALUES bytes, each 0 to WATCH_MOST_CLASS: the class of each
 *                 byte. K is the largest plus 1
 *     parts       1 to WATCH_MOST_PARTS sets
 *     rows        parts x K sets: the row of part p and class k is number p x K + k
 *     splits      1 to WATCH_MOST_SPLITS records of WATCH_SPLIT_SIZE bytes: a set, then WATCH_SLOTS
 *                 slots, each a 2-byte part number, or WATCH_UNUSED
 *
 * A bit matrix is made from a list: for each state up to the highest that a record of the list
 * names (as the state that an edge leaves or leads to, or that starts or accepts), and each byte, a
 * set. The set of state s and byte c is number s x WATCH_BYTE_VALUES + c, so that a matrix has
 * WATCH_ROW_SIZE bytes for each state: at most WATCH_MOST_MATRIX.
 *
 * The index of splits is what the prepared feed runs: WATCH_INDEX_SIZE(n) bytes where there are n
 * splits. First the set of the states that some record of the list names; then for each split an
 * entry of WATCH_ENTRY_SIZE bytes. The entry of split i, counted from 0, stands at place
 * WATCH_INDEX_SIZE(i), counted in bytes from the index's front:
 *
 *     0-1023      a word of 4 bytes for each byte: the place of the entry that it leads to, and
 *                 WATCH_TELLING more where that one tells
 *     1024-1055   the signatures told on reaching the split: signature g is bit g mod 8 of byte g
 *                 div 8
 *     1056        the rows that a byte at the split costs: the slots that it takes
 *     1057        1 where a record of the list names each state of the split's set, else 0
 *     1058-1087   zeros
 *
 * watch_fill_index writes it for a table, watch_prepare splits and index for a list: each of these
 * splits is a set and four unused slots, and a byte at it costs one row. An index holds for the
 * list, the bound and the table that it was filled for, byte by byte as they were; make it again
 * where one of them changes. Any other bytes of the right length are run as they stand: see
 * watch_prepared_feed.
 *
 * An automaton with bits and counters is two lists. It has one state, WATCH_X_BITS bits and
 * WATCH_X_COUNTERS counters, each of which is off or a number up to 65,535; a byte moves the state
 * alone, whatever bits and counters are, and then the program of the new state runs. State 0
 * starts, with all bits clear and all counters off, and its program runs at opening.
 *
 *     moves       for each of 1 to WATCH_X_STATES states WATCH_X_MOVES_SIZE bytes: a 2-byte target
 *                 for each byte
 *     programs    for each state WATCH_X_PROGRAM_SIZE bytes: 8 records of a kind, a bit or counter,
 *                 and a 2-byte number or signature, which run in their order:
 *
 *     kind 0      nothing
 *     kind 1      set the bit
 *     kind 2      clear the bit
 *     kind 3      set the counter to the number
 *     kind 4      turn the counter off
 *     kind 5      lower the counter by one: 0 becomes off, off stays
 *     kind 6      alert the signature
 *     kind 7      alert the signature if the bit is set
 *     kind 8      alert the signature if the counter is 0
 *
 * What a kind does not use is 0. An alert sees what the same program did before it; alerts of one
 * byte are told by signature, each once. The flow record of such an automaton is WATCH_X_FLOW_SIZE
 * bytes: state 2, zero 2, offset 4, bits 8 (bit 0 is worth 1 of its first byte), then the counters,
 * 4 bytes each, with WATCH_X_OFF for off.
 *
 * A certificate that such an automaton is a list's is up to WATCH_MOST_NOTES records of
 * WATCH_NOTE_SIZE bytes, in any order: a flow record without its offset, then a set of the list's
 * states. watch_check_certificate accepts it exactly if each record's fields are good, no
 * configuration (state, bits and counters) is there twice, the start configuration after its
 * program is there with the start set, each byte leads each record to a configuration that is there
 * with the list's step of the set, and the program that runs then alerts exactly the signatures
 * which the new set accepts; so does the program at opening. Records that nothing reaches are
 * tested as the others are. From opening on, a flow of that automaton and a flow of the list are
 * then told the same pairs, however the bytes are cut.
 *
 * A signature text is what people write; watch_compile makes a list of it.
 *
 *     a           a byte stands for itself, other than \ . [ ] ( ) | * + ? { } ^
 *     \xHH \n     the byte of two hex digits; byte 10
 *     \s          space, or one of bytes 9 to 13
 *     .           any byte
 *     [a-z\n]     a class: one of its bytes, escapes and ranges of two single bytes, low <= high;
 *                 in it all but \ [ ] ^ - stand for themselves
 *     [^a-z]      any byte but these
 *     (x) x|y xy  a group, at most WATCH_MOST_DEPTH deep; x or y; x and then y. A side of | may be
 *                 empty
 *     x* x+ x?    any number of times; once or more; once or not at all
 *     x{m,n}      m to n times, m <= n <= WATCH_MOST_REPEAT, each of 1 to 3 digits
 *
 * A byte, an escape, a class or a group has at most one of the marks * + ? {m,n} behind it. The
 * text may begin anywhere in the flow; with ^ in front of all of it, it begins at offset 0. Every
 * end of every occurrence is told, not the longest alone.
 *
 *
 * SEGMENTS
 *
 * Where a sender resends after a timeout, in pieces that overlap, its segments are put in order by
 * sequence number: 32 bits, the number of a segment's first byte. Numbers wrap past 4294967295 to
 * 0, and a number is ahead of another when it lies 1 to 2147483647 past it; 2147483648 past it and
 * more counts as before it. The next byte due has number `first` + offset, wrapped: `first` is the
 * number of the flow's first byte, the offset is the record's. So the place in the flow moves on by
 * the bytes that a feed consumed, and by nothing else.
 *
 * One segment that comes too early is held: WATCH_HELD_SIZE bytes of the caller's, the held buffer,
 * and the held place, the number of the first byte held and how many are. At the beginning none
 * are: length 0. Bytes first consumed or held count: what a resend brings for their places is
 * dropped.
 *
 * Each look at a segment is watch_take, then watch_due, then a feed of what is due; `where` of the
 * part is one of enum watch_where. Keep the place that watch_take answers each time, and look again
 * with the same segment until nothing is due, also where watch_take answered 18: what is held may
 * be due all the same. The 18 that counts is that of the look which finds nothing due: the segment
 * is to be sent again then, and after an 18 of an earlier look it is not. Stop at a look whose feed
 * is refused, as with 6: its bytes would stay due for ever. Four looks are enough where each feed
 * consumes all that it is given.
 *
 * The segment feeds, whose names end in _feed_segment, make all looks at a segment themselves: hand
 * in the segment and the held place, keep the place that is answered, and hand in the same segment
 * again while there is neither a refusal nor `all`, after taking the pairs. The refusal that they
 * answer is the one that counts. Where one takes a hint and answers a split, hand that in with the
 * next segment.
 *
 * To go on after being killed, save `first` when the flow is opened and after each renewal. Save
 * the held buffer, then the held place, then feed, hand over the pairs, and save the record, in
 * this order, at each look; or save all of it in one write, once the pairs are handed over. Then
 * nothing is lost, and no pair of an offset up to the saved one is told again. The pairs of the
 * last feed before a kill lie behind that offset and come again: whoever acts on them keeps the
 * offset of the last one and passes over those up to it.
 *
 *
 * RENEWING
 *
 * A flow ends at WATCH_MOST_OFFSET with 6. To go on past it, renew the record of a list's flow: the
 * frontier stays, offset and rows become 0, and the pairs of offset 0 are not told again. Keep the
 * bytes before the last renewal beside the record, as 64 bits, and add them to each offset told:
 * these are then the pairs of one flow without a largest offset. With `first` the number of the
 * flow's first byte, segments go on too:
 *
 *     uint64_t offset = watch_offset(flow, WATCH_FLOW_SIZE);
 *     if (watch_renew(flow, WATCH_FLOW_SIZE) == WATCH_PASSED) {
 *         before += offset;
 *         first += (uint32_t)offset;
 *     }
 *
 * Save `before` and `first` with the record, in one write.
 *
 *
 * REFUSALS
 *
 * A refusal is one of these numbers, and 0 where there is none. Where several apply, the lowest is
 * given, but 17 before 16, 20 before 19, and 24 before all others than 1 to 3.
 *
 * (face: refusals)
 *      1   the list's length is 0, over WATCH_MOST_LIST, or no multiple of WATCH_RECORD_SIZE
 *      2   a record of the list has another kind, a reserved byte that is not zero, a byte 3 of an
 *          edge that is over 1, low > high, a state that is not below WATCH_STATES, or a signature
 *          that is not below WATCH_SIGNATURES
 *      3   the list has no start record
 *      4   the flow record is not WATCH_FLOW_SIZE bytes long; or, when it is fed, its four reserved
 *          bytes are not zero, its rows read are more than WATCH_STATES x offset, or its frontier
 *          has a state that no record of the list names (as an edge's from or to, a start's state
 *          or an accept's); of an automaton with bits and counters: it is not WATCH_X_FLOW_SIZE
 *          bytes long; or, when it is fed, its state is none of the moves, a reserved byte is not
 *          zero, or a counter is over WATCH_X_OFF
 *      5   the piece's stated start is not the flow's offset
 *      6   offset + piece length is over WATCH_MOST_OFFSET
 *      7   the bound is not 1 to WATCH_MOST_BOUND
 *      8   a list of the table, or its index, has the wrong length, or a class is over
 *          WATCH_MOST_CLASS; or the matrix has not WATCH_ROW_SIZE bytes for each state up to the
 *          highest that the list names
 *      9   a split has a used slot that names no part, a used slot after an unused one, slots that
 *          do not strictly rise, more used slots than the bound, or a set that is not greater, as a
 *          string of bytes, than the one before; the split feed looks at the sets alone
 *     10   a row that some byte selects is not the automaton's step of its part on that byte
 *     11   the set of a split is not the union of its parts
 *     12   the start set is no split
 *     13   for some split and some byte, the automaton's step of the split's set is no split
 *     14   at a byte of a split feed: the frontier is no split, or the slots taken name no part or
 *          are more than the bound; at a byte of a prepared feed: the frontier is not found among
 *          the splits, or the byte before led to a place without a whole entry
 *     15   at opening: the pairs of offset 0 are more than pairs_len div 2
 *     16   building: more than WATCH_MOST_PARTS sets can be reached from the start set, or more
 *          than WATCH_MOST_CLASS + 1 classes are needed; preparing: more than WATCH_MOST_SPLITS
 *          sets can be reached
 *     17   building: a lent list is shorter than WATCH_LENT_CLASSES, WATCH_LENT_PARTS,
 *          WATCH_LENT_ROWS or WATCH_LENT_SPLITS bytes; preparing: the lent splits are shorter than
 *          WATCH_PREPARE_SPLITS bytes, or the lent index than WATCH_PREPARE_INDEX
 *     18   of a segment: it has more than WATCH_MOST_SEGMENT bytes, held_len is not
 *          WATCH_HELD_SIZE, held_length is over that; or it begins ahead, and another segment is
 *          held or it has more than WATCH_HELD_SIZE bytes
 *     19   compiling: the text does not fit; place is the first byte, counted from 0, with which no
 *          continuation fits, or the text's length where it is cut short
 *     20   compiling: a seventeenth nested bracket opens, before the place of 19 or in a good text
 *     21   compiling: the list would have more than WATCH_STATES states or WATCH_MOST_RECORDS
 *          records, or be longer than the lent one
 *     22   of a certificate: not a whole number of records, or over WATCH_MOST_NOTES of them; a
 *          field is bad, a configuration is there twice, the start configuration is not there with
 *          the start set, a byte leads to no record with the list's step of the set, or what is
 *          alerted then or at opening is not what that set accepts
 *     24   of an automaton with bits and counters: a list has a wrong length, or the two are of
 *          other numbers of states; a target is no state; a record has another kind, a bit that is
 *          not below WATCH_X_BITS, a counter that is not below WATCH_X_COUNTERS, a signature that
 *          is not below WATCH_SIGNATURES, or a field that is not used and not 0. Every program is
 *          tested, reached or not
 *     25   of a question why: the offset lies before start or behind start + piece length; or, with
 *          n = offset - start, run_len is under n + 1 or work_len under WATCH_SET_SIZE x (n + 1)
 *     26   of a question why: the pair is not due there, or the state not in the frontier; of an
 *          edge: no record is one
 *     27   joining: the list check refuses the other list
 *     28   joining: `used` is over the lent list's length, or the joined list is, or that has more
 *          than WATCH_MOST_RECORDS records or a state that is not below WATCH_STATES; folding: the
 *          lent list is shorter than the folded one
 * (face: end)
 *
 * Each has a name, WATCH_REFUSED_ and some words, and a sentence that watch_refusal_text gives.
 *
 * What each function refuses, in the order in which it is looked for:
 *
 * (face: calls)
 *     watch_check_list              1 to 3
 *     watch_open                    1 to 4, 15
 *     watch_feed                    1 to 6
 *     watch_check_table             1 to 3, 7 to 13
 *     watch_split_feed              1 to 9; then 14 at a byte
 *     watch_fill_matrix             1 to 3, 8
 *     watch_matrix_feed             1 to 6, 8
 *     watch_fill_index              1 to 3, 7 to 13
 *     watch_prepared_feed           4 to 6, 8; then 14 at a byte
 *     watch_prepare                 1 to 3; then 17; then 16
 *     watch_build                   1 to 3; then 17; then 16
 *     watch_x_check                 24
 *     watch_x_open                  24; then 4, 15
 *     watch_x_feed                  24; then 4 to 6
 *     watch_take                    18
 *     watch_feed_segment            18 of the sizes; then 1 to 6; then 6, 18 of a look
 *     watch_split_feed_segment      18 of the sizes; then 1 to 9; then 6, 14, 18 of a look
 *     watch_prepared_feed_segment   18 of the sizes; then 4 to 6, 8; then 6, 14, 18 of a look
 *     watch_x_feed_segment          18 of the sizes; then 24; then 4 to 6; then 6, 18 of a look
 *     watch_check_certificate       1 to 3; then 24; then 22
 *     watch_compile                 20 or 19, the one that stands first in the text; then 21
 *     watch_join                    1 to 3, 27, 28
 *     watch_fold                    1 to 3, 28
 *     watch_why                     1 to 6; then 25; then 26
 *     watch_why_state               1 to 6; then 25; then 26
 *     watch_edge                    1 to 3; then 26
 *     watch_renew                   4
 * (face: end)
 *
 * A refusal other than 14 and 16 changes no buffer, and 16, of building and of preparing alike,
 * fills the lent lists with zeros; but one that a look at a segment meets keeps what the looks
 * before it did, and the bytes, pairs, flow and held place answered are those after them.
 *
 *
 * WHAT THE CALLER OWES
 *
 * There is no wrong content: every byte in every buffer, and every length, start and bound, has an
 * answer. The rest is the caller's, and a call that breaks it has no promise at all:
 *
 *   - Each pointer is good for its length, as C means it: x_len bytes can be read at x, and the
 *     flow_len bytes, the pairs_len words, the bytes of a matrix or an index that is filled, the
 *     lists that watch_build, watch_prepare and watch_compile are lent and the held buffer of
 *     watch_take and of the segment feeds can also be written, and so can run and work. pairs is
 *     aligned as a uint32_t, run as a uint16_t; nothing else has to be aligned.
 *   - Through a pointer with length 0 nothing is read or written, so it may point anywhere. Give
 *     one that is not NULL, as the address of any object: the code takes NULL with length 0 today,
 *     and that is tested, but it is no part of what is proved. NULL with another length is an
 *     error.
 *   - flow and pairs are written, by a filler its matrix or index, by watch_build its four lists,
 *     by watch_prepare its two, by watch_compile its list, and by watch_take and the segment feeds
 *     the held buffer, so none overlaps another buffer of the call. The buffers that are only read
 *     may overlap one another, or be the same.
 *   - Nobody else writes any buffer of a call, or reads flow or pairs, while the call runs. Calls
 *     in several threads may share lists and tables; each has its own flow and pairs.
 *   - The machine is x86-64, with the calling convention of the System V ABI (Linux, the BSDs; not
 *     Windows).
 *
 *
 * COST AND CONTEXT
 *
 *   - Stack: WATCH_MOST_STACK bytes below the caller's frame at most, whatever the input, return
 *     addresses and red zone counted; that is for watch_fill_index, which keeps the sets that the
 *     bytes lead to from a split there, and calls the table check. watch_prepare, which keeps such
 *     sets too, takes 38,168, watch_join, which keeps marks and counts of states and their new
 *     numbers, 25,016, watch_fold, which keeps numbers of states and records, 23,016,
 *     watch_check_certificate, which keeps the places of the records and bytes that step alike,
 *     14,056, watch_check_table, which keeps bytes that step alike, 5,720, and all others but one
 *     2,000 at most: watch_compile keeps a row for each state, 160 KiB, goes as deep as the
 *     brackets do, and takes WATCH_COMPILE_STACK.
 *     tools/stack reads the number off the archive for each function, and tools/test-outside holds
 *     these to it.
 *   - No heap, no statics, no locks, no system calls: the archive has no data that can be written,
 *     and calls nothing outside itself but C's memset, which clears a matrix that is filled, the
 *     sets of watch_prepare and watch_fill_index, the places of a certificate's records, the
 *     numbers of watch_fold and watch_join and the compiler's rows, and memcpy, in watch_compile
 *     and watch_join; a compiler asks for both without an operating system too. Their stack is not
 *     in the numbers above. So every function is reentrant: threads, tasks and signal handlers may
 *     be in it at once, each with its own flow and pairs.
 *   - The code uses the general registers, the registers of SSE2 and the 128 bytes below the stack
 *     pointer, the red zone. So it is not for a bare interrupt, nor for a kernel that leaves those
 *     to the task that it interrupts: wake a task, and call from there.
 *   - Every call ends; that is proved. Its work is bounded by the lengths that it is given, and
 *     grows as docs/PERFORMANCE.md shows. That page and docs/landings name the archives that the
 *     counts here are of.
 *   - The checks of tables and certificates, watch_build, watch_prepare and the fillers are for
 *     loading, in a task that may take its time. In millions of instructions: the table check
 *     14,876 for 1,024 sets on a full list; watch_build 4,081 for these; the check of a certificate
 *     1,308 for 1,024 records on a full list with 24 classes of bytes, and 340,119, the most that
 *     was found, for 4,096 records whose sets hold all states; watch_prepare 460 for 364 sets of
 *     852 records; watch_fill_matrix 49 on a full list. A processor that makes 3,000 million a
 *     second takes 5, 1.4, 0.4, 113, 0.2 and 0.02 seconds for these.
 *   - Every feed checks its list again, because what it promises holds for every list; then it
 *     gathers the accepting states. Together that is some 27 instructions a record and call,
 *     220,000 on 8,192 records, before the first byte. So feed what has come in one call, and not
 *     byte by byte.
 *   - The watch_x_ functions check both lists at every call, 360 instructions a state, 369,000 at
 *     1,024 states; a byte whose state has a program of nothing then costs 19 instructions.
 *   - A look at a segment, watch_take and then watch_due, costs some 200 instructions, and a
 *     quarter of one for each byte that is held. watch_feed_segment checks the list once more than
 *     its feed, at the door, and costs some 600 instructions beside for a segment that is due.
 *   - C++: the declarations have C linkage, no exception leaves a function, and the header compiles
 *     from C++98 on, where <stdint.h> and <stdbool.h> are there.
 *
 * What is proved, and what is assumed with it, is in docs/PROMISES.md.
 */
#ifndef WATCH_H
#define WATCH_H

#if !defined(__x86_64__) || defined(__ILP32__) || defined(_WIN32) || defined(__CYGWIN__)
#error "watch.h: libwatch_c.a is for x86-64 and the System V ABI; use x86_64-linux-gnu-gcc"
#endif

#include <stdbool.h>
#include <stddef.h>
#include <stdint.h>

#ifdef __cplusplus
extern "C" {
#endif

/* (face: sizes) */
/* The version of the face. */
#define WATCH_VERSION 20

/* Bytes of stack that a call takes at most, but for one of watch_compile. */
#define WATCH_MOST_STACK 39360

/* Bytes of stack that a call of watch_compile takes at most. */
#define WATCH_COMPILE_STACK 233728

/* States are the numbers below this one. */
#define WATCH_STATES 1024

/* Signatures are the numbers below this one. */
#define WATCH_SIGNATURES 256

/* Bytes in a set of states: a bit for each. */
#define WATCH_SET_SIZE (WATCH_STATES / 8)

/* Bytes in a record of a list. */
#define WATCH_RECORD_SIZE 8

/* The most records that a list may have. */
#define WATCH_MOST_RECORDS 8192

/* Bytes of a list of the most records. */
#define WATCH_MOST_LIST (WATCH_MOST_RECORDS * WATCH_RECORD_SIZE)

/* The place of the offset in a flow record, which begins with a set: 4 bytes. */
#define WATCH_OFFSET_AT WATCH_SET_SIZE

/* The place of the reserved bytes in a flow record: 4 zeros. */
#define WATCH_RESERVED_AT (WATCH_OFFSET_AT + 4)

/* The place of the rows read in a flow record: 8 bytes. */
#define WATCH_ROWS_AT (WATCH_RESERVED_AT + 4)

/* Bytes in a flow record. */
#define WATCH_FLOW_SIZE (WATCH_ROWS_AT + 8)

/* The largest offset. */
#define WATCH_MOST_OFFSET 4294967295

/* Words with which a feed never stands still, and an opening is never refused with 15: room for
 * a pair of each signature. */
#define WATCH_ENOUGH_WORDS (2 * WATCH_SIGNATURES)

/* Bytes that a piece may have; each has a class. */
#define WATCH_BYTE_VALUES 256

/* The largest class. */
#define WATCH_MOST_CLASS 63

/* The most parts of a table. */
#define WATCH_MOST_PARTS 1024

/* The most splits of a table. */
#define WATCH_MOST_SPLITS 4096

/* The largest bound. */
#define WATCH_MOST_BOUND 4

/* Slots in a split. */
#define WATCH_SLOTS 4

/* The number in a slot that is not in use. */
#define WATCH_UNUSED 65535

/* Bytes in a split: its set, then its slots of two bytes. */
#define WATCH_SPLIT_SIZE (WATCH_SET_SIZE + 2 * WATCH_SLOTS)

/* Bytes of a matrix for one state: a set for each byte. */
#define WATCH_ROW_SIZE (WATCH_BYTE_VALUES * WATCH_SET_SIZE)

/* Bytes of a matrix for all states. */
#define WATCH_MOST_MATRIX (WATCH_STATES * WATCH_ROW_SIZE)

/* Bytes in the entry of a split in an index. */
#define WATCH_ENTRY_SIZE 1088

/* Bytes of an index of so many splits. */
#define WATCH_INDEX_SIZE(splits) (WATCH_SET_SIZE + WATCH_ENTRY_SIZE * (splits))

/* Bytes in the index of the most splits: a set of states, then an entry for each. */
#define WATCH_MOST_INDEX (WATCH_SET_SIZE + WATCH_ENTRY_SIZE * WATCH_MOST_SPLITS)

/* What a word of an index has more where the entry that it leads to tells. */
#define WATCH_TELLING 2147483648

/* The bytes that the classes of a table that is built need. */
#define WATCH_LENT_CLASSES WATCH_BYTE_VALUES

/* The bytes that its parts need. */
#define WATCH_LENT_PARTS (WATCH_SET_SIZE * WATCH_MOST_PARTS)

/* The bytes that its rows need. */
#define WATCH_LENT_ROWS (WATCH_SET_SIZE * WATCH_MOST_PARTS * (WATCH_MOST_CLASS + 1))

/* The bytes that its splits need. */
#define WATCH_LENT_SPLITS (WATCH_SPLIT_SIZE * WATCH_MOST_PARTS)

/* The bytes that splits prepared straight from a list need. */
#define WATCH_PREPARE_SPLITS (WATCH_SPLIT_SIZE * WATCH_MOST_SPLITS)

/* The bytes that their index needs. */
#define WATCH_PREPARE_INDEX WATCH_MOST_INDEX

/* The most states of an automaton with bits and counters. */
#define WATCH_X_STATES 1024

/* Bytes of a state's moves: a target of two bytes for each byte. */
#define WATCH_X_MOVES_SIZE 512

/* Bytes of a state's program: 8 records of 4 bytes. */
#define WATCH_X_PROGRAM_SIZE 32

/* Bits are the numbers below this one. */
#define WATCH_X_BITS 64

/* Counters are the numbers below this one. */
#define WATCH_X_COUNTERS 16

/* How a counter that is off is written in a flow record. */
#define WATCH_X_OFF 65536

/* Bytes in a flow record of an automaton with bits and counters. */
#define WATCH_X_FLOW_SIZE 80

/* The most bytes of a segment. */
#define WATCH_MOST_SEGMENT 65535

/* Bytes of the held buffer. */
#define WATCH_HELD_SIZE 4096

/* Bytes in a record of a certificate: a flow record of an automaton with bits and counters
 * without its offset, then a set of list states. */
#define WATCH_NOTE_SIZE (WATCH_X_FLOW_SIZE - 4 + WATCH_SET_SIZE)

/* The most records of a certificate. */
#define WATCH_MOST_NOTES 4096

/* The most brackets of a signature text inside one another. */
#define WATCH_MOST_DEPTH 16

/* The largest number of a repeat in a signature text. */
#define WATCH_MOST_REPEAT 300
/* (face: end) */

/* (face: names) */
/* The refusals by name, and what is answered where there is none. The functions answer them as
 * numbers. */
enum watch_refusal {
    WATCH_PASSED = 0,
    WATCH_REFUSED_LIST_LENGTH = 1,
    WATCH_REFUSED_LIST_RECORD = 2,
    WATCH_REFUSED_NO_START = 3,
    WATCH_REFUSED_FLOW_RECORD = 4,
    WATCH_REFUSED_OTHER_START = 5,
    WATCH_REFUSED_TOO_LONG = 6,
    WATCH_REFUSED_BOUND = 7,
    WATCH_REFUSED_TABLE_LISTS = 8,
    WATCH_REFUSED_SPLIT_RECORD = 9,
    WATCH_REFUSED_WRONG_ROW = 10,
    WATCH_REFUSED_WRONG_UNION = 11,
    WATCH_REFUSED_NO_START_SPLIT = 12,
    WATCH_REFUSED_NOT_CLOSED = 13,
    WATCH_REFUSED_NO_SPLIT = 14,
    WATCH_REFUSED_NO_ROOM = 15,
    WATCH_REFUSED_TOO_MANY = 16,
    WATCH_REFUSED_LENT_LISTS = 17,
    WATCH_REFUSED_SEGMENT = 18,
    WATCH_REFUSED_BAD_TEXT = 19,
    WATCH_REFUSED_TOO_DEEP = 20,
    WATCH_REFUSED_TOO_BIG = 21,
    WATCH_REFUSED_CERTIFICATE = 22,
    WATCH_REFUSED_MACHINE = 24,
    WATCH_REFUSED_PLACE = 25,
    WATCH_REFUSED_NOT_DUE = 26,
    WATCH_REFUSED_OTHER_LIST = 27,
    WATCH_REFUSED_LIST_ROOM = 28
};
/* (face: end) */

/* (face: structs) */
/* What an opening answers. */
struct watch_opened {
    uint64_t pairs;   /* pairs written: twice as many words */
    uint32_t refusal; /* WATCH_PASSED, 0, or the number of the refusal */
};

typedef struct watch_opened watch_opened;

/* What a feed answers. */
struct watch_fed {
    uint64_t bytes;   /* bytes consumed, from the front of the piece */
    uint64_t pairs;   /* pairs written: twice as many words */
    uint32_t refusal; /* WATCH_PASSED, 0, or the number of the refusal */
    bool all;         /* whether the whole piece was consumed; false with every refusal, also of
                        * an empty piece */
};

typedef struct watch_fed watch_fed;

/* What the prepared feed answers. */
struct watch_stood {
    uint64_t bytes;   /* bytes consumed, from the front of the piece */
    uint64_t pairs;   /* pairs written: twice as many words */
    uint32_t refusal; /* WATCH_PASSED, 0, or the number of the refusal */
    uint32_t split;   /* where the flow then stands, counted from 0; the number of splits where
                        * it stands at none, with 14 too; with 4, 5, 6 and 8 the hint handed in */
    bool all;         /* whether the whole piece was consumed; false with every refusal */
};

typedef struct watch_stood watch_stood;

/* What preparing answers. */
struct watch_made {
    uint64_t splits;  /* bytes used of each list: 0 with every refusal */
    uint64_t index;   /* bytes used of the index; 0 with every refusal */
    uint32_t refusal; /* WATCH_PASSED, 0, or the number of the refusal */
};

typedef struct watch_made watch_made;

/* What building a table answers. */
struct watch_built {
    uint64_t classes; /* bytes used of the classes; 0 with every refusal */
    uint64_t parts;   /* bytes used of the parts; 0 with every refusal */
    uint64_t rows;    /* bytes used of the rows; 0 with every refusal */
    uint64_t splits;  /* bytes used of the splits; 0 with every refusal */
    uint32_t refusal; /* WATCH_PASSED, 0, or the number of the refusal */
};

typedef struct watch_built watch_built;

/* What taking a segment answers. */
struct watch_held {
    uint32_t refusal; /* WATCH_PASSED, 0, or WATCH_REFUSED_SEGMENT, 18 */
    uint32_t start;   /* the held place: the number of the first byte held, */
    uint32_t length;  /* and how many bytes are held; keep both for the next call */
};

typedef struct watch_held watch_held;

/* The part that is due. */
struct watch_part {
    uint64_t at;     /* where it begins in the buffer that has it, */
    uint64_t length; /* and how many bytes it has; 0 where nothing is due */
    uint32_t where;  /* one of enum watch_where */
};

typedef struct watch_part watch_part;

/* Where the part is that is due: nothing is due, it is in the held buffer, or in the segment. */
enum watch_where {
    WATCH_DUE_NOWHERE = 0,
    WATCH_DUE_HELD = 1,
    WATCH_DUE_SEGMENT = 2
};

/* What feeding a segment answers. */
struct watch_heard {
    uint64_t bytes;       /* bytes passed down to the flow */
    uint64_t pairs;       /* pairs written: twice as many words */
    uint32_t refusal;     /* WATCH_PASSED, 0, or the number of the refusal */
    uint32_t held_start;  /* the held place: the number of the first byte held, */
    uint32_t held_length; /* and how many bytes are held; keep both for the next call */
    bool all;             /* whether nothing is due any more; false with every refusal */
};

typedef struct watch_heard watch_heard;

/* What feeding a segment by an index answers: the same, and the split. */
struct watch_heard_at {
    uint64_t bytes;       /* bytes passed down to the flow */
    uint64_t pairs;       /* pairs written: twice as many words */
    uint32_t refusal;     /* WATCH_PASSED, 0, or the number of the refusal */
    uint32_t held_start;  /* the held place: the number of the first byte held, */
    uint32_t held_length; /* and how many bytes are held; keep both for the next call */
    bool all;             /* whether nothing is due any more; false with every refusal */
    uint32_t split;       /* where the flow then stands, as the last feed among the looks
                            * answered it: with a 6 the hint handed in, and the hint too where no
                            * look fed anything */
};

typedef struct watch_heard_at watch_heard_at;

/* What compiling a text answers. */
struct watch_compiled {
    uint64_t place;   /* with 19, where the text goes wrong, counted from 0; else 0 */
    uint64_t length;  /* bytes of the list, from the front of the lent one; 0 with every refusal */
    uint32_t refusal; /* WATCH_PASSED, 0, or the number of the refusal */
};

typedef struct watch_compiled watch_compiled;

/* What joining and folding answer. */
struct watch_joined {
    uint64_t length;  /* bytes of the list, from the front of the lent one; 0 with every refusal */
    uint32_t refusal; /* WATCH_PASSED, 0, or the number of the refusal */
};

typedef struct watch_joined watch_joined;

/* What watch_edge answers. */
struct watch_found {
    uint64_t record;  /* the record's place in the list, counted from 0; 0 with every refusal */
    uint32_t refusal; /* WATCH_PASSED, 0, or the number of the refusal */
};

typedef struct watch_found watch_found;
/* (face: end) */

/* (face: layout) */
#if defined(__cplusplus) && __cplusplus >= 201103L
static_assert(sizeof(size_t) == 8, "watch.h: the layout is that of x86-64");
static_assert(sizeof(watch_opened) == 16 && offsetof(watch_opened, refusal) == 8,
              "watch.h: the layout is that of x86-64");
static_assert(sizeof(watch_fed) == 24 && offsetof(watch_fed, pairs) == 8 && offsetof(watch_fed,
              refusal) == 16 && offsetof(watch_fed, all) == 20,
              "watch.h: the layout is that of x86-64");
static_assert(sizeof(watch_stood) == 32 && offsetof(watch_stood, pairs) == 8 &&
              offsetof(watch_stood, refusal) == 16 && offsetof(watch_stood, split) == 20 &&
              offsetof(watch_stood, all) == 24,
              "watch.h: the layout is that of x86-64");
static_assert(sizeof(watch_made) == 24 && offsetof(watch_made, index) == 8 && offsetof(watch_made,
              refusal) == 16,
              "watch.h: the layout is that of x86-64");
static_assert(sizeof(watch_built) == 40 && offsetof(watch_built, parts) == 8 &&
              offsetof(watch_built, rows) == 16 && offsetof(watch_built, splits) == 24 &&
              offsetof(watch_built, refusal) == 32,
              "watch.h: the layout is that of x86-64");
static_assert(sizeof(watch_held) == 12 && offsetof(watch_held, start) == 4 && offsetof(watch_held,
              length) == 8,
              "watch.h: the layout is that of x86-64");
static_assert(sizeof(watch_part) == 24 && offsetof(watch_part, length) == 8 && offsetof(watch_part,
              where) == 16,
              "watch.h: the layout is that of x86-64");
static_assert(sizeof(watch_heard) == 32 && offsetof(watch_heard, pairs) == 8 &&
              offsetof(watch_heard, refusal) == 16 && offsetof(watch_heard, held_start) == 20 &&
              offsetof(watch_heard, held_length) == 24 && offsetof(watch_heard, all) == 28,
              "watch.h: the layout is that of x86-64");
static_assert(sizeof(watch_heard_at) == 40 && offsetof(watch_heard_at, pairs) == 8 &&
              offsetof(watch_heard_at, refusal) == 16 && offsetof(watch_heard_at, held_start) == 20
              && offsetof(watch_heard_at, held_length) == 24 && offsetof(watch_heard_at, all) == 28
              && offsetof(watch_heard_at, split) == 32,
              "watch.h: the layout is that of x86-64");
static_assert(sizeof(watch_compiled) == 24 && offsetof(watch_compiled, length) == 8 &&
              offsetof(watch_compiled, refusal) == 16,
              "watch.h: the layout is that of x86-64");
static_assert(sizeof(watch_joined) == 16 && offsetof(watch_joined, refusal) == 8,
              "watch.h: the layout is that of x86-64");
static_assert(sizeof(watch_found) == 16 && offsetof(watch_found, refusal) == 8,
              "watch.h: the layout is that of x86-64");
#elif defined(__STDC_VERSION__) && __STDC_VERSION__ >= 201112L
_Static_assert(sizeof(size_t) == 8, "watch.h: the layout is that of x86-64");
_Static_assert(sizeof(watch_opened) == 16 && offsetof(watch_opened, refusal) == 8,
               "watch.h: the layout is that of x86-64");
_Static_assert(sizeof(watch_fed) == 24 && offsetof(watch_fed, pairs) == 8 && offsetof(watch_fed,
               refusal) == 16 && offsetof(watch_fed, all) == 20,
               "watch.h: the layout is that of x86-64");
_Static_assert(sizeof(watch_stood) == 32 && offsetof(watch_stood, pairs) == 8 &&
               offsetof(watch_stood, refusal) == 16 && offsetof(watch_stood, split) == 20 &&
               offsetof(watch_stood, all) == 24,
               "watch.h: the layout is that of x86-64");
_Static_assert(sizeof(watch_made) == 24 && offsetof(watch_made, index) == 8 && offsetof(watch_made,
               refusal) == 16,
               "watch.h: the layout is that of x86-64");
_Static_assert(sizeof(watch_built) == 40 && offsetof(watch_built, parts) == 8 &&
               offsetof(watch_built, rows) == 16 && offsetof(watch_built, splits) == 24 &&
               offsetof(watch_built, refusal) == 32,
               "watch.h: the layout is that of x86-64");
_Static_assert(sizeof(watch_held) == 12 && offsetof(watch_held, start) == 4 && offsetof(watch_held,
               length) == 8,
               "watch.h: the layout is that of x86-64");
_Static_assert(sizeof(watch_part) == 24 && offsetof(watch_part, length) == 8 && offsetof(watch_part,
               where) == 16,
               "watch.h: the layout is that of x86-64");
_Static_assert(sizeof(watch_heard) == 32 && offsetof(watch_heard, pairs) == 8 &&
               offsetof(watch_heard, refusal) == 16 && offsetof(watch_heard, held_start) == 20 &&
               offsetof(watch_heard, held_length) == 24 && offsetof(watch_heard, all) == 28,
               "watch.h: the layout is that of x86-64");
_Static_assert(sizeof(watch_heard_at) == 40 && offsetof(watch_heard_at, pairs) == 8 &&
               offsetof(watch_heard_at, refusal) == 16 && offsetof(watch_heard_at, held_start) == 20
               && offsetof(watch_heard_at, held_length) == 24 && offsetof(watch_heard_at, all) == 28
               && offsetof(watch_heard_at, split) == 32,
               "watch.h: the layout is that of x86-64");
_Static_assert(sizeof(watch_compiled) == 24 && offsetof(watch_compiled, length) == 8 &&
               offsetof(watch_compiled, refusal) == 16,
               "watch.h: the layout is that of x86-64");
_Static_assert(sizeof(watch_joined) == 16 && offsetof(watch_joined, refusal) == 8,
               "watch.h: the layout is that of x86-64");
_Static_assert(sizeof(watch_found) == 16 && offsetof(watch_found, refusal) == 8,
               "watch.h: the layout is that of x86-64");
#endif
/* (face: end) */

/* (face: functions) */
/* The version of the face that the archive has: WATCH_VERSION, where this is its header. */
uint32_t watch_version(void);

/* The list check: 0, or a refusal 1 to 3. */
uint32_t watch_check_list(const uint8_t *list, size_t list_len);

/* Opens a flow. The record then holds the start states, offset 0 and no rows read; what was in
 * it before does not matter. The pairs of offset 0, one for each signature that a start state
 * accepts, are written, by signature; the words after them stay as they are, and an odd last
 * word always. Refusals 1 to 4 and 15 answer 0 pairs and change nothing. With WATCH_ENOUGH_WORDS
 * words 15 is never given; where no start state accepts, none are needed. To open a record again
 * is to begin a new flow, and its pairs are told again. */
watch_opened watch_open(const uint8_t *list, size_t list_len,
                        uint8_t *flow, size_t flow_len,
                        uint32_t *pairs, size_t pairs_len);

/* The plain feed. The piece begins at offset `start` of the flow, which has to be the record's
 * own offset. Consumes the longest front of the piece whose pairs all fit into pairs_len div 2
 * pairs, writes those pairs and the record as after the last byte consumed. Where `all` is false
 * and the refusal 0, the feed paused for want of room: take the pairs, and feed the rest from
 * its middle, at piece + bytes, with start + bytes. Words after the pairs written stay as they
 * are; so does an odd last word always. With WATCH_ENOUGH_WORDS words a feed of a non-empty
 * piece that is not refused consumes at least one byte. An empty piece is taken whole. Refusals
 * 1 to 6 answer 0 bytes and 0 pairs and change nothing. */
watch_fed watch_feed(const uint8_t *list, size_t list_len,
                     uint8_t *flow, size_t flow_len,
                     uint64_t start,
                     const uint8_t *piece, size_t piece_len,
                     uint32_t *pairs, size_t pairs_len);

/* The table check: 0 exactly when the table obeys the rules on this list at this bound; or a
 * refusal 1 to 3 or 7 to 13. A flow that is opened on the list and fed through a table that
 * passed gives the pairs of the plain feed, never a 14, and reads at most `bound` rows a byte. */
uint32_t watch_check_table(const uint8_t *list, size_t list_len,
                           uint64_t bound,
                           const uint8_t *classes, size_t classes_len,
                           const uint8_t *parts, size_t parts_len,
                           const uint8_t *rows, size_t rows_len,
                           const uint8_t *splits, size_t splits_len);

/* The split feed: as the plain feed, but each byte's new frontier is read from the table: of the
 * first split whose set equals the frontier, the slots before the first unused one, and of each
 * the row of that part and the byte's class, joined. The table need not have passed the check,
 * but its splits' sets must strictly rise: each call tests that once, before any byte, and
 * refuses with 9 where they do not, an empty piece too. Every call pays for this test, by the
 * number of splits: pieces of many bytes are cheaper. Refusals 1 to 9 answer 0 bytes and 0 pairs
 * and change nothing. A refusal 14 is found at a byte, before its room is looked at; it answers
 * the bytes and pairs before that byte, and they and the record stand as after it was fed those
 * bytes alone. */
watch_fed watch_split_feed(const uint8_t *list, size_t list_len,
                           uint64_t bound,
                           const uint8_t *classes, size_t classes_len,
                           const uint8_t *parts, size_t parts_len,
                           const uint8_t *rows, size_t rows_len,
                           const uint8_t *splits, size_t splits_len,
                           uint8_t *flow, size_t flow_len,
                           uint64_t start,
                           const uint8_t *piece, size_t piece_len,
                           uint32_t *pairs, size_t pairs_len);

/* The filler: writes the matrix of a list. 0, and each set is where the list leads from its
 * state alone on its byte; or a refusal 1 to 3 or 8, which leaves the matrix as it is. What was
 * in it before does not matter. */
uint32_t watch_fill_matrix(const uint8_t *list, size_t list_len,
                           uint8_t *matrix, size_t matrix_len);

/* The matrix feed: as the plain feed, but each byte's new frontier is the union of the sets that
 * the matrix has for the frontier's states and the byte; a state past the highest that the list
 * names adds nothing. With a matrix that the filler wrote for this list it answers and leaves in
 * every way what the plain feed does, rows read as well. Any other matrix of the right length is
 * run as stored. Refusals 1 to 6 and 8 answer 0 bytes and 0 pairs and change nothing; 8 is given
 * for an empty piece too. */
watch_fed watch_matrix_feed(const uint8_t *list, size_t list_len,
                            const uint8_t *matrix, size_t matrix_len,
                            uint8_t *flow, size_t flow_len,
                            uint64_t start,
                            const uint8_t *piece, size_t piece_len,
                            uint32_t *pairs, size_t pairs_len);

/* Fills the index of a table: 0 exactly when the table check passes the table on this list at
 * this bound and index_len is WATCH_INDEX_SIZE(splits); or a refusal 1 to 3 or 7 to 13, which
 * changes nothing. It runs the table check, and then steps the list for each split and one byte
 * of each class. */
uint32_t watch_fill_index(const uint8_t *list, size_t list_len,
                          uint64_t bound,
                          const uint8_t *classes, size_t classes_len,
                          const uint8_t *parts, size_t parts_len,
                          const uint8_t *rows, size_t rows_len,
                          const uint8_t *splits, size_t splits_len,
                          uint8_t *index, size_t index_len);

/* The prepared feed: as the split feed, but each byte is one look into the index. With the
 * splits of a table and the index that watch_fill_index wrote for it, it answers and leaves what
 * watch_split_feed does with that list, bound and table, on every record, start, piece and
 * buffer; with the splits and the index of watch_prepare, on a flow opened on that list, what
 * watch_feed does but for the rows, of which each byte reads one. It needs no list, classes,
 * parts, rows and bound. `split` is a hint: the split where the flow stands, as the call before
 * answered it. Any number may be handed in: where it is not the number of a split that has the
 * record's frontier, that one is sought by halving, once in the call: from low 0 and high the
 * number of splits on, the middle is (low + high) / 2, and where its set comes before the
 * frontier low becomes one more than it, else high becomes it. With an index of watch_fill_index
 * or watch_prepare everything but the split that refusals 4 to 6 and 8 hand back is the same for
 * every hint. So hand in 0 for a new flow or one that other calls fed, and from then on what the
 * call before answered. The hint is not part of the flow: nothing is lost with it. Any other
 * index is run as it stands. Each byte's word names a place: from there WATCH_ENTRY_SIZE bytes
 * are the next entry, wherever it begins, and its signatures are told where the word has
 * WATCH_TELLING more, and only there; a byte costs the rows that the entry it leaves says. The
 * split of a place is the last whose entry begins there or before, and split 0 before the first;
 * its set is the frontier saved. A word past the last whole entry tells nothing, stands for the
 * empty set and no split, and halts the next byte with 14. The notes of an entry are run as they
 * stand too: byte 1056 counts as rows, any byte 1057 but 0 says that all states are named, and
 * those behind it are not looked at; so an index of zeros, which nobody filled, names no state,
 * and a frontier with one is refused with 4. Where two splits have the frontier's set the hint
 * decides. Refusals 4 to 6 and 8 answer 0 bytes and 0 pairs and change nothing. 4 is given as
 * well where the frontier holds a state that is not named: where the hint is the split with that
 * set, by byte 1057 of its entry; else by the set that the index begins with, but not where the
 * index is shorter than that. 8 is given where the splits are not 1 to WATCH_MOST_SPLITS records
 * or index_len is not WATCH_INDEX_SIZE of their number. A refusal 14 is as in the split feed. */
watch_stood watch_prepared_feed(const uint8_t *splits, size_t splits_len,
                                const uint8_t *index, size_t index_len,
                                uint32_t split,
                                uint8_t *flow, size_t flow_len,
                                uint64_t start,
                                const uint8_t *piece, size_t piece_len,
                                uint32_t *pairs, size_t pairs_len);

/* Prepares splits and their index straight from a list, in two lists that the caller lends: a
 * split for each set that can be reached from the start set, in rising order as strings of
 * bytes, its four slots unused, and their index, by which a byte costs one row. It answers the
 * bytes used of each list; zeros follow them to the list's end. These fronts are for
 * watch_prepared_feed and need no check; they are no table, since no slot names a part. There is
 * no limit on classes. Refusals 1 to 3 and 17 change nothing; 17 looks at the lengths alone,
 * before any set is looked for. 16 fills both lists with zeros, as watch_build does: these two
 * are the refusals before any byte that change a buffer. Each set is stepped once for each class
 * of bytes that the list itself makes; docs/PERFORMANCE.md has its cost. */
watch_made watch_prepare(const uint8_t *list, size_t list_len,
                         uint8_t *splits, size_t splits_len,
                         uint8_t *index, size_t index_len);

/* Builds the table of a list at bound 1, in four lists that the caller lends: a part and a split
 * for each set that can be reached from the start set, in rising order as strings of bytes, and
 * as few classes as the list permits, numbered by their lowest bytes. It answers the bytes used
 * of each list; zeros follow them to the list's end, and watch_check_table accepts these fronts
 * at bound 1, so they need no check. The lists may be longer than the WATCH_LENT_ sizes.
 * Refusals 1 to 3 and 17 change nothing; 17 looks at the lengths alone, before the list's sets
 * are looked for. 16 fills all four lists with zeros. It is for a task that may take its time:
 * docs/PERFORMANCE.md has its cost. */
watch_built watch_build(const uint8_t *list, size_t list_len,
                        uint8_t *classes, size_t classes_len,
                        uint8_t *parts, size_t parts_len,
                        uint8_t *rows, size_t rows_len,
                        uint8_t *splits, size_t splits_len);

/* The check of an automaton with bits and counters: 0, or 24. */
uint32_t watch_x_check(const uint8_t *moves, size_t moves_len,
                       const uint8_t *programs, size_t programs_len);

/* Opens a flow on such an automaton: state 0's program runs, and what it alerts is told at
 * offset 0, as watch_open tells its pairs. Of the record its length alone is looked at. Refusals
 * 24, 4 and 15 answer 0 pairs and change nothing. */
watch_opened watch_x_open(const uint8_t *moves, size_t moves_len,
                          const uint8_t *programs, size_t programs_len,
                          uint8_t *flow, size_t flow_len,
                          uint32_t *pairs, size_t pairs_len);

/* Feeds a piece to such a flow: room, pauses, pairs and words as of watch_feed. A pause saves
 * nothing of the paused byte's program. Refusals 24, 4, 5 and 6, in this order, answer 0 bytes
 * and 0 pairs and change nothing. */
watch_fed watch_x_feed(const uint8_t *moves, size_t moves_len,
                       const uint8_t *programs, size_t programs_len,
                       uint8_t *flow, size_t flow_len,
                       uint64_t start,
                       const uint8_t *piece, size_t piece_len,
                       uint32_t *pairs, size_t pairs_len);

/* Takes a segment whose first byte has number `segment_start`, where the next byte due has
 * number `next`: an empty one, or one whose bytes all came before, is dropped; one that begins
 * ahead is copied into the held buffer, if no other is held and it fits there, else refused with
 * 18; of one that overlaps, nothing is held, and its new end is due. Answers the held place:
 * that of the segment where it is held; else the one handed in, with length 0 where all its
 * bytes came before. 18 answers the held place as it was handed in and changes nothing. held
 * does not overlap the segment. */
watch_held watch_take(uint32_t next,
                      uint8_t *held, size_t held_len,
                      uint32_t held_start,
                      uint32_t held_length,
                      uint32_t segment_start,
                      const uint8_t *segment, size_t segment_len);

/* The next bytes due, as a part of the held buffer or of the segment, whichever has them: held +
 * at or segment + at, `length` bytes. The held ones go first where both have them, so a part of
 * the segment ends where the held ones begin. Nothing is due where neither has the byte with
 * number `next`, or where the sizes are those that watch_take refuses. The bytes are not read,
 * and nothing is copied. */
watch_part watch_due(uint32_t next,
                     const uint8_t *held, size_t held_len,
                     uint32_t held_start,
                     uint32_t held_length,
                     uint32_t segment_start,
                     const uint8_t *segment, size_t segment_len);

/* Feeds a segment to a flow by its list: at most four looks, each of which takes the segment and
 * feeds what is due, until nothing is due, the pairs have no room, or a look is refused. The
 * flow's first byte has number `first`, the segment's number `start`. Refusals at the door, 18
 * for the sizes first and then 1 to 6 of a feed of no bytes, answer 0 bytes, 0 pairs and the
 * held place as it was handed in, and change nothing. 6 or 18 that a look meets keeps what the
 * looks before it did: bytes, pairs, flow and held place are those after them, and the same
 * segment would be refused again. The segment is to be sent again after an 18; after a 6 the
 * flow is to be renewed. Where there is neither a refusal nor `all`, the pairs had no room: take
 * them, and hand in the same segment again. With WATCH_ENOUGH_WORDS words each call then passes
 * down at least one byte. flow, held and pairs are written, and none overlaps another buffer of
 * the call. */
watch_heard watch_feed_segment(const uint8_t *list, size_t list_len,
                               uint8_t *flow, size_t flow_len,
                               uint32_t first,
                               uint8_t *held, size_t held_len,
                               uint32_t held_start,
                               uint32_t held_length,
                               uint32_t start,
                               const uint8_t *segment, size_t segment_len,
                               uint32_t *pairs, size_t pairs_len);

/* The same by a table: 1 to 9 after 18 at the door, and 14 of a look too, which keeps the bytes
 * before it. */
watch_heard watch_split_feed_segment(const uint8_t *list, size_t list_len,
                                     uint64_t bound,
                                     const uint8_t *classes, size_t classes_len,
                                     const uint8_t *parts, size_t parts_len,
                                     const uint8_t *rows, size_t rows_len,
                                     const uint8_t *splits, size_t splits_len,
                                     uint8_t *flow, size_t flow_len,
                                     uint32_t first,
                                     uint8_t *held, size_t held_len,
                                     uint32_t held_start,
                                     uint32_t held_length,
                                     uint32_t start,
                                     const uint8_t *segment, size_t segment_len,
                                     uint32_t *pairs, size_t pairs_len);

/* The same by an index, each look's feed as watch_prepared_feed with the hint handed in: 4 to 6
 * and 8 after 18 at the door, and 14 of a look too. A refusal at the door answers the hint as it
 * was handed in. */
watch_heard_at watch_prepared_feed_segment(const uint8_t *splits, size_t splits_len,
                                           const uint8_t *index, size_t index_len,
                                           uint32_t split,
                                           uint8_t *flow, size_t flow_len,
                                           uint32_t first,
                                           uint8_t *held, size_t held_len,
                                           uint32_t held_start,
                                           uint32_t held_length,
                                           uint32_t start,
                                           const uint8_t *segment, size_t segment_len,
                                           uint32_t *pairs, size_t pairs_len);

/* The same by an automaton with bits and counters, on its own records: 24 and 4 to 6 after 18 at
 * the door. */
watch_heard watch_x_feed_segment(const uint8_t *moves, size_t moves_len,
                                 const uint8_t *programs, size_t programs_len,
                                 uint8_t *flow, size_t flow_len,
                                 uint32_t first,
                                 uint8_t *held, size_t held_len,
                                 uint32_t held_start,
                                 uint32_t held_length,
                                 uint32_t start,
                                 const uint8_t *segment, size_t segment_len,
                                 uint32_t *pairs, size_t pairs_len);

/* The check of a certificate that an automaton with bits and counters is a list's: 0, or 1 to 3,
 * then 24, then 22. It makes a step of the list and of the automaton for each record and byte. */
uint32_t watch_check_certificate(const uint8_t *list, size_t list_len,
                                 const uint8_t *moves, size_t moves_len,
                                 const uint8_t *programs, size_t programs_len,
                                 const uint8_t *certificate, size_t certificate_len);

/* Compiles a signature text: the first length bytes of the lent list are then the list of its
 * position automaton under the signature, whose records rise as strings of bytes; bytes behind
 * them stay. That list passes 1 to 3 in every function here, and a flow under it tells
 * (signature, k) exactly where the first k bytes end in a word of the text, or are one where the
 * text begins with ^. WATCH_MOST_LIST bytes are room for any list. Refusals 20, 19 and 21 change
 * nothing. The work grows with the text's length times the positions, and a repeated part is
 * read again for each of its times: docs/landings/i.md has numbers. */
watch_compiled watch_compile(const uint8_t *text, size_t text_len,
                             uint8_t signature,
                             uint8_t *list, size_t list_len);

/* Joins two lists: the list in the first `used` bytes of the lent one, and another. The first
 * length bytes of the lent list are then the joined list; bytes behind them stay. A pair is due
 * under it exactly when it is due under one of the two. The first list's records and states stay
 * as they are, the other's states are numbered on behind them; where both have a start state
 * with a loop on every byte, or else both have a start state that no edge leads to, the two
 * become one. Any two lists that pass 1 to 3 may be joined, and what was joined may be joined
 * again. Refusals 1 to 3 are of the first list (of the whole lent list where `used` is over its
 * length), then 27, then 28; a refusal changes nothing. A record that was opened under the first
 * list runs under the joined one without the other's start states: open flows anew. list and
 * other do not overlap. */
watch_joined watch_join(uint8_t *list, size_t list_len,
                        uint64_t used,
                        const uint8_t *other, size_t other_len);

/* Folds a list: states with the same past, which both start or both do not, and to which the
 * same edges lead, become one. The first length bytes of the lent list are then the folded list,
 * whose states are numbered anew; bytes behind them stay. Every flow tells the same pairs under
 * it. It is no longer than the list, so list_len bytes are room for it. Refusals 1 to 3, then
 * 28, change nothing. A record that was saved under the list does not belong to the folded one:
 * open flows anew. The two lists do not overlap. */
watch_joined watch_fold(const uint8_t *list, size_t list_len, uint8_t *folded, size_t folded_len);

/* Says why the pair (signature, offset) is due: a run of the automaton that gives it. The record
 * is one saved before the piece, which begins at its offset `start`; it is not changed. To ask
 * from the opening on, give the record that watch_open left, start 0 and the flow's bytes. With
 * n = offset - start, the first n + 1 numbers of run are then states: the first is in the
 * record's frontier, each byte of the piece has an edge record that leads from one state to the
 * next, and the last accepts the signature. Of all such runs it is the one with the lowest state
 * at the end, then the lowest before it, and so on backwards. run_len counts 16-bit numbers, and
 * run is aligned as a uint16_t. work is room for WATCH_SET_SIZE x (n + 1) bytes; afterwards it
 * holds the frontiers after 0 to n of the bytes, one behind the other. What is behind in run and
 * work stays. offset = start is asked of the record itself, 0 at opening too. 0 is answered
 * exactly where the pair is due: for every pair that a feed by any engine told there is a run,
 * from any record of the flow saved before it. Refusals 1 to 6, then 25, then 26, change
 * nothing. run and work overlap nothing else of the call. */
uint32_t watch_why(const uint8_t *list, size_t list_len,
                   const uint8_t *flow, size_t flow_len,
                   uint64_t start,
                   const uint8_t *piece, size_t piece_len,
                   uint32_t signature,
                   uint64_t offset,
                   uint16_t *run, size_t run_len,
                   uint8_t *work, size_t work_len);

/* Says why a state is in the frontier at an offset: the same, of a run whose last state is this
 * one. So a long flow is explained backwards: ask watch_why on the last record saved before the
 * pair, then this of the run's first state on the record before that, with the bytes between the
 * two, and so on. The runs joined are the one that watch_why would tell of all these bytes at
 * once. */
uint32_t watch_why_state(const uint8_t *list, size_t list_len,
                         const uint8_t *flow, size_t flow_len,
                         uint64_t start,
                         const uint8_t *piece, size_t piece_len,
                         uint32_t state,
                         uint64_t offset,
                         uint16_t *run, size_t run_len,
                         uint8_t *work, size_t work_len);

/* The edge that a step of a run takes: the first record of the list that leads from one state to
 * another on a byte. Refusals 1 to 3; 26 where no record does, and for a byte over 255. */
watch_found watch_edge(const uint8_t *list, size_t list_len,
                       uint32_t from,
                       uint32_t byte,
                       uint32_t to);

/* Renews the record of a list's flow: its frontier stays, offset and rows become 0. 4 where the
 * record is not WATCH_FLOW_SIZE bytes long, its reserved bytes are not zero, or its rows read
 * are more than WATCH_STATES x offset; no list is looked at. 4 changes nothing. */
uint32_t watch_renew(uint8_t *flow, size_t flow_len);

/* The offset of a record of WATCH_FLOW_SIZE or of WATCH_X_FLOW_SIZE bytes; of bytes of another
 * length 18446744073709551615. Nothing else of the record is looked at. */
uint64_t watch_offset(const uint8_t *flow, size_t flow_len);
/* (face: end) */

/* The sentence of a refusal, for a person to read: without a capital, a full stop or a line feed.
 * Every number has an answer. The text is constant, and never NULL. */
static inline const char *watch_refusal_text(uint32_t n)
{
    switch (n) {
    case WATCH_PASSED:
        return "there is no refusal";
    /* (face: texts) */
    case WATCH_REFUSED_LIST_LENGTH:
        return "the list's length is 0, over 65536, or no multiple of 8";
    case WATCH_REFUSED_LIST_RECORD:
        return "a record of the list has another kind, a reserved byte that is not zero, a byte 3 "
               "of an edge that is over 1, low > high, a state that is not below 1024, or a "
               "signature that is not below 256";
    case WATCH_REFUSED_NO_START:
        return "the list has no start record";
    case WATCH_REFUSED_FLOW_RECORD:
        return "the flow record is not 144 bytes long; or, when it is fed, its four reserved "
               "bytes are not zero, its rows read are more than 1024 x offset, or its frontier "
               "has a state that no record of the list names (as an edge's from or to, a start's "
               "state or an accept's); of an automaton with bits and counters: it is not 80 bytes "
               "long; or, when it is fed, its state is none of the moves, a reserved byte is not "
               "zero, or a counter is over 65536";
    case WATCH_REFUSED_OTHER_START:
        return "the piece's stated start is not the flow's offset";
    case WATCH_REFUSED_TOO_LONG:
        return "offset + piece length is over 4294967295";
    case WATCH_REFUSED_BOUND:
        return "the bound is not 1 to 4";
    case WATCH_REFUSED_TABLE_LISTS:
        return "a list of the table, or its index, has the wrong length, or a class is over 63; "
               "or the matrix has not 32768 bytes for each state up to the highest that the list "
               "names";
    case WATCH_REFUSED_SPLIT_RECORD:
        return "a split has a used slot that names no part, a used slot after an unused one, "
               "slots that do not strictly rise, more used slots than the bound, or a set that is "
               "not greater, as a string of bytes, than the one before; the split feed looks at "
               "the sets alone";
    case WATCH_REFUSED_WRONG_ROW:
        return "a row that some byte selects is not the automaton's step of its part on that byte";
    case WATCH_REFUSED_WRONG_UNION:
        return "the set of a split is not the union of its parts";
    case WATCH_REFUSED_NO_START_SPLIT:
        return "the start set is no split";
    case WATCH_REFUSED_NOT_CLOSED:
        return "for some split and some byte, the automaton's step of the split's set is no split";
    case WATCH_REFUSED_NO_SPLIT:
        return "at a byte of a split feed: the frontier is no split, or the slots taken name no "
               "part or are more than the bound; at a byte of a prepared feed: the frontier is "
               "not found among the splits, or the byte before led to a place without a whole "
               "entry";
    case WATCH_REFUSED_NO_ROOM:
        return "at opening: the pairs of offset 0 are more than pairs_len div 2";
    case WATCH_REFUSED_TOO_MANY:
        return "building: more than 1024 sets can be reached from the start set, or more than 63 "
               "+ 1 classes are needed; preparing: more than 4096 sets can be reached";
    case WATCH_REFUSED_LENT_LISTS:
        return "building: a lent list is shorter than 256, 131072, 8388608 or 139264 bytes; "
               "preparing: the lent splits are shorter than 557056 bytes, or the lent index than "
               "4456576";
    case WATCH_REFUSED_SEGMENT:
        return "of a segment: it has more than 65535 bytes, held_len is not 4096, held_length is "
               "over that; or it begins ahead, and another segment is held or it has more than "
               "4096 bytes";
    case WATCH_REFUSED_BAD_TEXT:
        return "compiling: the text does not fit; place is the first byte, counted from 0, with "
               "which no continuation fits, or the text's length where it is cut short";
    case WATCH_REFUSED_TOO_DEEP:
        return "compiling: a seventeenth nested bracket opens, before the place of 19 or in a "
               "good text";
    case WATCH_REFUSED_TOO_BIG:
        return "compiling: the list would have more than 1024 states or 8192 records, or be "
               "longer than the lent one";
    case WATCH_REFUSED_CERTIFICATE:
        return "of a certificate: not a whole number of records, or over 4096 of them; a field is "
               "bad, a configuration is there twice, the start configuration is not there with "
               "the start set, a byte leads to no record with the list's step of the set, or what "
               "is alerted then or at opening is not what that set accepts";
    case WATCH_REFUSED_MACHINE:
        return "of an automaton with bits and counters: a list has a wrong length, or the two are "
               "of other numbers of states; a target is no state; a record has another kind, a "
               "bit that is not below 64, a counter that is not below 16, a signature that is not "
               "below 256, or a field that is not used and not 0. Every program is tested, "
               "reached or not";
    case WATCH_REFUSED_PLACE:
        return "of a question why: the offset lies before start or behind start + piece length; "
               "or, with n = offset - start, run_len is under n + 1 or work_len under 128 x (n + "
               "1)";
    case WATCH_REFUSED_NOT_DUE:
        return "of a question why: the pair is not due there, or the state not in the frontier; "
               "of an edge: no record is one";
    case WATCH_REFUSED_OTHER_LIST:
        return "joining: the list check refuses the other list";
    case WATCH_REFUSED_LIST_ROOM:
        return "joining: `used` is over the lent list's length, or the joined list is, or that "
               "has more than 8192 records or a state that is not below 1024; folding: the lent "
               "list is shorter than the folded one";
    /* (face: end) */
    default:
        return "no refusal has this number";
    }
}

#ifdef __cplusplus
}
#endif

#endif
