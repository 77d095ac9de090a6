//! The functions of the archive as they are: numbers, pointers and lengths. `include/watch.h` says
//! the same in C. tools/face writes this file.
//!
//! The rest of this crate is a safe face over them; these are here for callers that hold foreign
//! buffers, and for tests.
//!
//! # Safety
//!
//! Of every function here: each pointer is valid for its length, which counts items and not bytes,
//! for reads, and a `*mut` for writes too; each is aligned as its type; what is written overlaps
//! nothing else of the call; nobody else writes any of the buffers, or reads one that is written,
//! during the call. A pointer with length 0 may dangle. There is no wrong content.

/// What an opening answers.
#[repr(C)]
#[derive(Clone, Copy, Debug, PartialEq, Eq)]
pub struct WatchOpened {
    /// Pairs written: twice as many words.
    pub pairs: u64,
    /// 0, or the number of the refusal.
    pub refusal: u32,
}

/// What a feed answers.
#[repr(C)]
#[derive(Clone, Copy, Debug, PartialEq, Eq)]
pub struct WatchFed {
    /// Bytes consumed, from the front of the piece.
    pub bytes: u64,
    /// Pairs written: twice as many words.
    pub pairs: u64,
    /// 0, or the number of the refusal.
    pub refusal: u32,
    /// Whether the whole piece was consumed; false with every refusal, also of an empty piece.
    pub all: bool,
}

/// What the prepared feed answers.
#[repr(C)]
#[derive(Clone, Copy, Debug, PartialEq, Eq)]
pub struct WatchStood {
    /// Bytes consumed, from the front of the piece.
    pub bytes: u64,
    /// Pairs written: twice as many words.
    pub pairs: u64,
    /// 0, or the number of the refusal.
    pub refusal: u32,
    /// Where the flow then stands, counted from 0; the number of splits where it stands at none,
    /// with 14 too; with 4, 5, 6 and 8 the hint handed in.
    pub split: u32,
    /// Whether the whole piece was consumed; false with every refusal.
    pub all: bool,
}

/// What preparing answers.
#[repr(C)]
#[derive(Clone, Copy, Debug, PartialEq, Eq)]
pub struct WatchMade {
    /// Bytes used of each list: 0 with every refusal.
    pub splits: u64,
    /// Bytes used of the index; 0 with every refusal.
    pub index: u64,
    /// 0, or the number of the refusal.
    pub refusal: u32,
}

/// What building a table answers.
#[repr(C)]
#[derive(Clone, Copy, Debug, PartialEq, Eq)]
pub struct WatchBuilt {
    /// Bytes used of the classes; 0 with every refusal.
    pub classes: u64,
    /// Bytes used of the parts; 0 with every refusal.
    pub parts: u64,
    /// Bytes used of the rows; 0 with every refusal.
    pub rows: u64,
    /// Bytes used of the splits; 0 with every refusal.
    pub splits: u64,
    /// 0, or the number of the refusal.
    pub refusal: u32,
}

/// What taking a segment answers.
#[repr(C)]
#[derive(Clone, Copy, Debug, PartialEq, Eq)]
pub struct WatchHeld {
    /// 0, or 18.
    pub refusal: u32,
    /// The held place: the number of the first byte held.
    pub start: u32,
    /// And how many bytes are held; keep both for the next call.
    pub length: u32,
}

/// The part that is due.
#[repr(C)]
#[derive(Clone, Copy, Debug, PartialEq, Eq)]
pub struct WatchPart {
    /// Where it begins in the buffer that has it.
    pub at: u64,
    /// And how many bytes it has; 0 where nothing is due.
    pub length: u64,
    /// One of enum watch_where.
    pub source: u32,
}

/// What feeding a segment answers.
#[repr(C)]
#[derive(Clone, Copy, Debug, PartialEq, Eq)]
pub struct WatchHeard {
    /// Bytes passed down to the flow.
    pub bytes: u64,
    /// Pairs written: twice as many words.
    pub pairs: u64,
    /// 0, or the number of the refusal.
    pub refusal: u32,
    /// The held place: the number of the first byte held.
    pub held_start: u32,
    /// And how many bytes are held; keep both for the next call.
    pub held_length: u32,
    /// Whether nothing is due any more; false with every refusal.
    pub all: bool,
}

/// What feeding a segment by an index answers: the same, and the split.
#[repr(C)]
#[derive(Clone, Copy, Debug, PartialEq, Eq)]
pub struct WatchHeardAt {
    /// Bytes passed down to the flow.
    pub bytes: u64,
    /// Pairs written: twice as many words.
    pub pairs: u64,
    /// 0, or the number of the refusal.
    pub refusal: u32,
    /// The held place: the number of the first byte held.
    pub held_start: u32,
    /// And how many bytes are held; keep both for the next call.
    pub held_length: u32,
    /// Whether nothing is due any more; false with every refusal.
    pub all: bool,
    /// Where the flow then stands, as the last feed among the looks answered it: with a 6 the hint
    /// handed in, and the hint too where no look fed anything.
    pub split: u32,
}

/// What compiling a text answers.
#[repr(C)]
#[derive(Clone, Copy, Debug, PartialEq, Eq)]
pub struct WatchCompiled {
    /// With 19, where the text goes wrong, counted from 0; else 0.
    pub place: u64,
    /// Bytes of the list, from the front of the lent one; 0 with every refusal.
    pub length: u64,
    /// 0, or the number of the refusal.
    pub refusal: u32,
}

/// What joining and folding answer.
#[repr(C)]
#[derive(Clone, Copy, Debug, PartialEq, Eq)]
pub struct WatchJoined {
    /// Bytes of the list, from the front of the lent one; 0 with every refusal.
    pub length: u64,
    /// 0, or the number of the refusal.
    pub refusal: u32,
}

/// What watch_edge answers.
#[repr(C)]
#[derive(Clone, Copy, Debug, PartialEq, Eq)]
pub struct WatchFound {
    /// The record's place in the list, counted from 0; 0 with every refusal.
    pub record: u64,
    /// 0, or the number of the refusal.
    pub refusal: u32,
}

extern "C" {
    /// The version of the face that the archive has.
    pub fn watch_version() -> u32;

    /// The list check: refusals 1 to 3.
    pub fn watch_check_list(list: *const u8, list_len: usize) -> u32;

    /// Opens a flow: refusals 1 to 4, 15.
    pub fn watch_open(
        list: *const u8,
        list_len: usize,
        flow: *mut u8,
        flow_len: usize,
        pairs: *mut u32,
        pairs_len: usize,
    ) -> WatchOpened;

    /// The plain feed: refusals 1 to 6.
    pub fn watch_feed(
        list: *const u8,
        list_len: usize,
        flow: *mut u8,
        flow_len: usize,
        start: u64,
        piece: *const u8,
        piece_len: usize,
        pairs: *mut u32,
        pairs_len: usize,
    ) -> WatchFed;

    /// The table check: refusals 1 to 3, 7 to 13.
    pub fn watch_check_table(
        list: *const u8,
        list_len: usize,
        bound: u64,
        classes: *const u8,
        classes_len: usize,
        parts: *const u8,
        parts_len: usize,
        rows: *const u8,
        rows_len: usize,
        splits: *const u8,
        splits_len: usize,
    ) -> u32;

    /// The split feed: refusals 1 to 9; then 14 at a byte.
    pub fn watch_split_feed(
        list: *const u8,
        list_len: usize,
        bound: u64,
        classes: *const u8,
        classes_len: usize,
        parts: *const u8,
        parts_len: usize,
        rows: *const u8,
        rows_len: usize,
        splits: *const u8,
        splits_len: usize,
        flow: *mut u8,
        flow_len: usize,
        start: u64,
        piece: *const u8,
        piece_len: usize,
        pairs: *mut u32,
        pairs_len: usize,
    ) -> WatchFed;

    /// The filler: refusals 1 to 3, 8.
    pub fn watch_fill_matrix(list: *const u8, list_len: usize, matrix: *mut u8, matrix_len: usize) -> u32;

    /// The matrix feed: refusals 1 to 6, 8.
    pub fn watch_matrix_feed(
        list: *const u8,
        list_len: usize,
        matrix: *const u8,
        matrix_len: usize,
        flow: *mut u8,
        flow_len: usize,
        start: u64,
        piece: *const u8,
        piece_len: usize,
        pairs: *mut u32,
        pairs_len: usize,
    ) -> WatchFed;

    /// Fills the index of a table: refusals 1 to 3, 7 to 13.
    pub fn watch_fill_index(
        list: *const u8,
        list_len: usize,
        bound: u64,
        classes: *const u8,
        classes_len: usize,
        parts: *const u8,
        parts_len: usize,
        rows: *const u8,
        rows_len: usize,
        splits: *const u8,
        splits_len: usize,
        index: *mut u8,
        index_len: usize,
    ) -> u32;

    /// The prepared feed: refusals 4 to 6, 8; then 14 at a byte.
    pub fn watch_prepared_feed(
        splits: *const u8,
        splits_len: usize,
        index: *const u8,
        index_len: usize,
        split: u32,
        flow: *mut u8,
        flow_len: usize,
        start: u64,
        piece: *const u8,
        piece_len: usize,
        pairs: *mut u32,
        pairs_len: usize,
    ) -> WatchStood;

    /// Prepares splits and their index straight from a list, in two lists that the caller lends:
    /// refusals 1 to 3; then 17; then 16.
    pub fn watch_prepare(
        list: *const u8,
        list_len: usize,
        splits: *mut u8,
        splits_len: usize,
        index: *mut u8,
        index_len: usize,
    ) -> WatchMade;

    /// Builds the table of a list at bound 1, in four lists that the caller lends: refusals 1 to 3;
    /// then 17; then 16.
    pub fn watch_build(
        list: *const u8,
        list_len: usize,
        classes: *mut u8,
        classes_len: usize,
        parts: *mut u8,
        parts_len: usize,
        rows: *mut u8,
        rows_len: usize,
        splits: *mut u8,
        splits_len: usize,
    ) -> WatchBuilt;

    /// The check of an automaton with bits and counters: refusals 24.
    pub fn watch_x_check(moves: *const u8, moves_len: usize, programs: *const u8, programs_len: usize) -> u32;

    /// Opens a flow on such an automaton: refusals 24; then 4, 15.
    pub fn watch_x_open(
        moves: *const u8,
        moves_len: usize,
        programs: *const u8,
        programs_len: usize,
        flow: *mut u8,
        flow_len: usize,
        pairs: *mut u32,
        pairs_len: usize,
    ) -> WatchOpened;

    /// Feeds a piece to such a flow: refusals 24; then 4 to 6.
    pub fn watch_x_feed(
        moves: *const u8,
        moves_len: usize,
        programs: *const u8,
        programs_len: usize,
        flow: *mut u8,
        flow_len: usize,
        start: u64,
        piece: *const u8,
        piece_len: usize,
        pairs: *mut u32,
        pairs_len: usize,
    ) -> WatchFed;

    /// Takes a segment whose first byte has number `segment_start`, where the next byte due has
    /// number `next`: refusals 18.
    pub fn watch_take(
        next: u32,
        held: *mut u8,
        held_len: usize,
        held_start: u32,
        held_length: u32,
        segment_start: u32,
        segment: *const u8,
        segment_len: usize,
    ) -> WatchHeld;

    /// The next bytes due, as a part of the held buffer or of the segment, whichever has them.
    pub fn watch_due(
        next: u32,
        held: *const u8,
        held_len: usize,
        held_start: u32,
        held_length: u32,
        segment_start: u32,
        segment: *const u8,
        segment_len: usize,
    ) -> WatchPart;

    /// Feeds a segment to a flow by its list: refusals 18 of the sizes; then 1 to 6; then 6, 18 of
    /// a look.
    pub fn watch_feed_segment(
        list: *const u8,
        list_len: usize,
        flow: *mut u8,
        flow_len: usize,
        first: u32,
        held: *mut u8,
        held_len: usize,
        held_start: u32,
        held_length: u32,
        start: u32,
        segment: *const u8,
        segment_len: usize,
        pairs: *mut u32,
        pairs_len: usize,
    ) -> WatchHeard;

    /// The same by a table: refusals 18 of the sizes; then 1 to 9; then 6, 14, 18 of a look.
    pub fn watch_split_feed_segment(
        list: *const u8,
        list_len: usize,
        bound: u64,
        classes: *const u8,
        classes_len: usize,
        parts: *const u8,
        parts_len: usize,
        rows: *const u8,
        rows_len: usize,
        splits: *const u8,
        splits_len: usize,
        flow: *mut u8,
        flow_len: usize,
        first: u32,
        held: *mut u8,
        held_len: usize,
        held_start: u32,
        held_length: u32,
        start: u32,
        segment: *const u8,
        segment_len: usize,
        pairs: *mut u32,
        pairs_len: usize,
    ) -> WatchHeard;

    /// The same by an index, each look's feed as watch_prepared_feed with the hint handed in:
    /// refusals 18 of the sizes; then 4 to 6, 8; then 6, 14, 18 of a look.
    pub fn watch_prepared_feed_segment(
        splits: *const u8,
        splits_len: usize,
        index: *const u8,
        index_len: usize,
        split: u32,
        flow: *mut u8,
        flow_len: usize,
        first: u32,
        held: *mut u8,
        held_len: usize,
        held_start: u32,
        held_length: u32,
        start: u32,
        segment: *const u8,
        segment_len: usize,
        pairs: *mut u32,
        pairs_len: usize,
    ) -> WatchHeardAt;

    /// The same by an automaton with bits and counters, on its own records: refusals 18 of the
    /// sizes; then 24; then 4 to 6; then 6, 18 of a look.
    pub fn watch_x_feed_segment(
        moves: *const u8,
        moves_len: usize,
        programs: *const u8,
        programs_len: usize,
        flow: *mut u8,
        flow_len: usize,
        first: u32,
        held: *mut u8,
        held_len: usize,
        held_start: u32,
        held_length: u32,
        start: u32,
        segment: *const u8,
        segment_len: usize,
        pairs: *mut u32,
        pairs_len: usize,
    ) -> WatchHeard;

    /// The check of a certificate that an automaton with bits and counters is a list's: refusals 1
    /// to 3; then 24; then 22.
    pub fn watch_check_certificate(
        list: *const u8,
        list_len: usize,
        moves: *const u8,
        moves_len: usize,
        programs: *const u8,
        programs_len: usize,
        certificate: *const u8,
        certificate_len: usize,
    ) -> u32;

    /// Compiles a signature text: refusals 20 or 19, the one that stands first in the text; then
    /// 21.
    pub fn watch_compile(
        text: *const u8,
        text_len: usize,
        signature: u8,
        list: *mut u8,
        list_len: usize,
    ) -> WatchCompiled;

    /// Joins two lists: refusals 1 to 3, 27, 28.
    pub fn watch_join(list: *mut u8, list_len: usize, used: u64, other: *const u8, other_len: usize) -> WatchJoined;

    /// Folds a list: refusals 1 to 3, 28.
    pub fn watch_fold(list: *const u8, list_len: usize, folded: *mut u8, folded_len: usize) -> WatchJoined;

    /// Says why the pair (signature, offset) is due: refusals 1 to 6; then 25; then 26.
    pub fn watch_why(
        list: *const u8,
        list_len: usize,
        flow: *const u8,
        flow_len: usize,
        start: u64,
        piece: *const u8,
        piece_len: usize,
        signature: u32,
        offset: u64,
        run: *mut u16,
        run_len: usize,
        work: *mut u8,
        work_len: usize,
    ) -> u32;

    /// Says why a state is in the frontier at an offset: refusals 1 to 6; then 25; then 26.
    pub fn watch_why_state(
        list: *const u8,
        list_len: usize,
        flow: *const u8,
        flow_len: usize,
        start: u64,
        piece: *const u8,
        piece_len: usize,
        state: u32,
        offset: u64,
        run: *mut u16,
        run_len: usize,
        work: *mut u8,
        work_len: usize,
    ) -> u32;

    /// The edge that a step of a run takes: refusals 1 to 3; then 26.
    pub fn watch_edge(list: *const u8, list_len: usize, from: u32, byte: u32, to: u32) -> WatchFound;

    /// Renews the record of a list's flow: refusals 4.
    pub fn watch_renew(flow: *mut u8, flow_len: usize) -> u32;

    /// The offset of a record of WATCH_FLOW_SIZE or of WATCH_X_FLOW_SIZE bytes.
    pub fn watch_offset(flow: *const u8, flow_len: usize) -> u64;
}
