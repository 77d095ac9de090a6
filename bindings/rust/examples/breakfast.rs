//! Watches a flow by the list of `examples/two-breakfasts`, as the program does, over the Rust
//! face.
//!
//!     cargo run --example breakfast [FLOW [RULES]]
//!
//! Without arguments it takes the flow `examples/two-breakfasts/twice` and the list beside it.
//! Writes a line for each pair, signature and offset, and last `end` and the offset, or `refused`
//! and the number. The flow arrives in pieces of 7 bytes, and between them its record is all that
//! is kept, as if the box had been switched off. The exit status is 0 where the flow ended, 1 where
//! it was refused, 2 where a file could not be read or a line not be written.

use std::io::{self, Read, Write};
use std::path::{Path, PathBuf};
use std::process::ExitCode;
use watch::{Flow, List, Refusal, FLOW_SIZE, MOST_LIST};

/// Bytes of a piece.
const PIECE: usize = 7;

/// A file of the example, where no other is named.
fn two_breakfasts(name: &str) -> PathBuf {
    Path::new(env!("CARGO_MANIFEST_DIR")).join("../../examples/two-breakfasts").join(name)
}

/// The next piece: filled as far as the flow goes, and empty at its end.
fn next_piece<'p>(flow: &mut impl Read, piece: &'p mut [u8; PIECE]) -> io::Result<&'p [u8]> {
    let mut filled = 0;
    while filled < PIECE {
        match flow.read(&mut piece[filled..]) {
            Ok(0) => break,
            Ok(count) => filled += count,
            Err(error) if error.kind() == io::ErrorKind::Interrupted => (),
            Err(error) => return Err(error),
        }
    }
    Ok(&piece[..filled])
}

/// Feeds a piece to the flow whose record was saved, and saves it again. Its pairs are written as
/// lines.
fn feed(
    list: &List,
    saved: &mut [u8; FLOW_SIZE],
    start: u64,
    piece: &[u8],
    out: &mut impl Write,
) -> io::Result<Option<Refusal>> {
    let mut flow = Flow::from_bytes(*saved);
    let mut written = Ok(());
    let fed = flow.feed_all(list, start, piece, |pair| {
        if written.is_ok() {
            written = writeln!(out, "{pair}");
        }
    });
    *saved = flow.into_bytes();
    written.map(|()| fed.err())
}

/// Watches a flow from its beginning to its end, or to a refusal.
fn watch(rules: &[u8], mut flow: impl Read, out: &mut impl Write) -> io::Result<Result<u64, Refusal>> {
    let list = match List::try_from(rules) {
        Ok(list) => list,
        Err(refusal) => return Ok(Err(refusal)),
    };
    let mut written = Ok(());
    let mut saved = Flow::open_all(&list, |pair| {
        if written.is_ok() {
            written = writeln!(out, "{pair}");
        }
    })
    .into_bytes();
    written?;
    let mut buffer = [0; PIECE];
    let mut offset = 0;
    loop {
        let piece = next_piece(&mut flow, &mut buffer)?;
        if piece.is_empty() {
            return Ok(Ok(offset));
        }
        if let Some(refusal) = feed(&list, &mut saved, offset, piece, out)? {
            return Ok(Err(refusal));
        }
        offset += piece.len() as u64;
    }
}

/// Watches the flow in a file by the list in another. Answers whether the flow ended, and was not
/// refused.
pub fn breakfast(flow: &Path, rules: &Path, out: &mut impl Write) -> io::Result<bool> {
    // One byte more than the longest list shows that a list is too long.
    let mut list = Vec::new();
    std::fs::File::open(rules)?.take(MOST_LIST as u64 + 1).read_to_end(&mut list)?;
    match watch(&list, std::fs::File::open(flow)?, out)? {
        Ok(offset) => writeln!(out, "end {offset}").map(|()| true),
        Err(refusal) => writeln!(out, "refused {}", refusal.number()).map(|()| false),
    }
}

fn main() -> ExitCode {
    let mut named = std::env::args_os().skip(1).map(PathBuf::from);
    let flow = named.next().unwrap_or_else(|| two_breakfasts("twice"));
    let rules = named.next().unwrap_or_else(|| two_breakfasts("rules.bin"));
    if named.next().is_some() {
        eprintln!("usage: breakfast [FLOW [RULES]]");
        return ExitCode::from(2);
    }
    match breakfast(&flow, &rules, &mut io::stdout()) {
        Ok(true) => ExitCode::SUCCESS,
        Ok(false) => ExitCode::from(1),
        Err(error) => {
            eprintln!("breakfast: {error}");
            ExitCode::from(2)
        }
    }
}
