//! Sets of numbers as an ordinary programmer has them: a bit for each number, in words of 64 bits.
use crate::later::chunks;
use crate::sizes::{SET_SIZE, SET_WORDS, SIGNATURE_WORDS};
use std::cmp::Ordering;

/// A set of numbers, a bit for each.
#[derive(Clone, Copy, PartialEq, Eq)]
pub struct Set<const WORDS: usize>(pub [u64; WORDS]);

pub type States = Set<SET_WORDS>;
pub type Signatures = Set<SIGNATURE_WORDS>;

impl<const WORDS: usize> Set<WORDS> {
    pub const EMPTY: Self = Set([0; WORDS]);

    /// The half of the word comes first: after a test of another word at `s % 64` the compiler would else shift for both, before either.
    pub fn has(self, s: u16) -> bool {
        self.0[usize::from(s / 64)] >> (s & 32) >> (s % 32) & 1 == 1
    }

    pub fn insert(&mut self, s: u16) {
        self.0[usize::from(s / 64)] |= 1 << (s % 64);
    }

    pub fn union(self, other: Self) -> Self {
        Set(std::array::from_fn(|i| self.0[i] | other.0[i]))
    }

    /// Whether each of its numbers is in the other.
    pub fn within(self, other: Self) -> bool {
        let extra = self.0.iter().zip(other.0);
        extra.fold(0, |all, (a, b)| all | a & !b) == 0
    }

    /// Whether a number is in both.
    pub fn meets(self, other: Self) -> bool {
        let shared = self.0.iter().zip(other.0);
        shared.fold(0, |all, (a, b)| all | a & b) != 0
    }

    /// How many numbers are in it. Four words without any are skipped at once.
    pub fn count(self) -> u32 {
        let blocks = self.0.chunks(4);
        blocks
            .filter(|block| block.iter().fold(0, |all, word| all | word) != 0)
            .map(|block| block.iter().map(|word| word.count_ones()).sum::<u32>())
            .sum()
    }

    /// The members, rising.
    pub fn members(self) -> impl Iterator<Item = u16> {
        (0u16..).zip(self.0).flat_map(|(i, word)| {
            let mut rest = word;
            std::iter::from_fn(move || {
                let bit = (rest != 0).then(|| rest.trailing_zeros() as u16)?;
                rest &= rest - 1;
                Some(64 * i + bit)
            })
        })
    }
}

impl States {
    pub fn read(bytes: &[u8; SET_SIZE]) -> States {
        let words = chunks::<_, 8>(bytes);
        Set(std::array::from_fn(|i| u64::from_le_bytes(words[i])))
    }

    /// How these bytes stand to its own as strings: the first word that differs decides, by its bytes. That is faster here than `cmp` of the
    /// bytes, for which the compiler calls the C library.
    pub fn order(self, bytes: &[u8; SET_SIZE]) -> Ordering {
        let words = chunks::<_, 8>(bytes);
        for (bytes, word) in words.iter().zip(self.0) {
            let other = u64::from_le_bytes(*bytes);
            if other != word {
                return other.swap_bytes().cmp(&word.swap_bytes());
            }
        }
        Ordering::Equal
    }

    pub fn bytes(self) -> [u8; SET_SIZE] {
        let mut bytes = [0; SET_SIZE];
        for (out, word) in bytes.chunks_exact_mut(8).zip(self.0) {
            out.copy_from_slice(&word.to_le_bytes());
        }
        bytes
    }
}

/// The sets of a list of sets.
pub fn sets(bytes: &[u8]) -> &[[u8; SET_SIZE]] {
    chunks(bytes)
}

/// A set of a list of sets, and a place to write one.
pub fn set_at(bytes: &[u8], i: usize) -> &[u8; SET_SIZE] {
    &sets(bytes)[i]
}

pub fn put_set(bytes: &mut [u8], i: usize, set: States) {
    bytes[SET_SIZE * i..][..SET_SIZE].copy_from_slice(&set.bytes());
}

pub fn swap_sets(bytes: &mut [u8], i: usize, j: usize, count: usize) {
    if i != j {
        let (front, back) = bytes.split_at_mut(SET_SIZE * count * i.max(j));
        let size = SET_SIZE * count;
        front[size * i.min(j)..][..size].swap_with_slice(&mut back[..size]);
    }
}
