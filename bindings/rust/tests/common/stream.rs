//! The files of the repository, and the streams of commands of `tools/second`: numbers with the low byte first, and blocks. Each command is run by a
//! test, and its line compared. `WATCH_VECTORS` may name a smaller number of lines.

use std::path::PathBuf;

/// Word i of a lent buffer holds this number plus i before a call.
const WORD_FILL: u32 = 2_774_138_880;

pub fn read(path: &str) -> Vec<u8> {
    let path = PathBuf::from(env!("CARGO_MANIFEST_DIR")).join("../..").join(path);
    std::fs::read(&path).unwrap_or_else(|error| panic!("{}: {error}", path.display()))
}

/// How many lines are asked for.
fn most_lines() -> u64 {
    super::number("WATCH_VECTORS", u64::MAX)
}

/// Whether all lines are asked for.
pub fn all_lines() -> bool {
    most_lines() == u64::MAX
}

pub struct Reader<'a>(pub &'a [u8]);

impl<'a> Reader<'a> {
    pub fn take(&mut self, count: usize) -> &'a [u8] {
        let (front, rest) = self.0.split_at(count);
        self.0 = rest;
        front
    }

    pub fn number(&mut self, count: usize) -> u64 {
        self.take(count).iter().rev().fold(0, |n, byte| n << 8 | u64::from(*byte))
    }

    pub fn u32(&mut self) -> u32 {
        self.number(4) as u32
    }

    /// A number of four bytes that is a length or a place.
    pub fn length(&mut self) -> usize {
        self.number(4) as usize
    }

    /// A length, and its bytes in runs: how many zeros, how many bytes after them, these bytes.
    pub fn block(&mut self) -> Box<[u8]> {
        let length = self.length();
        let mut bytes = Vec::with_capacity(length);
        while bytes.len() < length {
            let (zeros, count) = (self.take(1)[0], self.take(1)[0]);
            bytes.resize(bytes.len() + usize::from(zeros), 0);
            bytes.extend(self.take(count.into()));
        }
        assert_eq!(bytes.len(), length, "runs of a block");
        bytes.into()
    }

    /// A length and a seed, and the bytes that they stand for.
    pub fn sown(&mut self) -> Box<[u8]> {
        let (length, seed) = (self.length(), self.length());
        (0..length).map(|i| (seed + 7 * (i % 256) + i / 256) as u8).collect()
    }

    /// How many words are lent, and these as they are before a call.
    pub fn words(&mut self) -> Box<[u32]> {
        (0..self.u32()).map(|i| WORD_FILL.wrapping_add(i)).collect()
    }
}

pub fn digest(bytes: &[u8]) -> u64 {
    bytes.iter().fold(0, |h, &byte| (h * 257 + u64::from(byte) + 1) % 4_294_967_291)
}

pub fn digest_words(words: &[u32]) -> u64 {
    digest(&words.iter().flat_map(|word| word.to_le_bytes()).collect::<Vec<u8>>())
}

/// Lent bytes, as they are before a call.
pub fn lent_bytes(length: usize) -> Box<[u8]> {
    (0..length).map(|i| (165 + i) as u8).collect()
}

/// Runs the commands of a stream, each by a function that gives the line of one that answers, and compares the lines. Gives their number.
pub fn replay(commands: &str, lines: &str, mut run: impl FnMut(&mut Reader) -> Option<String>) -> u64 {
    let (commands, lines, most) = (read(commands), read(lines), most_lines());
    let mut expected = std::str::from_utf8(&lines).expect("lines of text").lines();
    let (mut reader, mut count) = (Reader(&commands), 0);
    while !reader.0.is_empty() && count < most {
        if let Some(line) = run(&mut reader) {
            count += 1;
            assert_eq!(Some(&*line), expected.next(), "line {count}");
        }
    }
    assert!(count == most || expected.next().is_none(), "as many lines as expected");
    count
}
