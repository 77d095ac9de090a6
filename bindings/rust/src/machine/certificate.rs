//! That an automaton with bits and counters is a list's.

use super::Machine;
use crate::call::call;
use crate::{List, Refusal, NOTE_SIZE};

/// A certificate that has passed: the automaton is the list's. It is proved that from opening both
/// feeds then tell the same pairs, however the bytes are cut; so the automaton may be run in the
/// list's place, whoever made it.
///
/// It has at most [`MOST_NOTES`](crate::MOST_NOTES) records of [`NOTE_SIZE`] bytes, in any order: a
/// flow record of the automaton without its offset, then a set of the list's states.
///
/// ```
/// use watch::machine::{Certificate, Machine};
/// use watch::{List, Refusal, NOTE_SIZE, SET_SIZE};
///
/// // A list of one state that loops on every byte, an automaton of one state, and the one
/// // configuration that it ever has.
/// let rules = *b"\x01\x00\xFF\0\0\0\0\0\x02\0\0\0\0\0\0\0";
/// let (list, machine) = (List::check(&rules)?, Machine::check(&[0; 512], &[0; 32])?);
/// let mut bytes = vec![0; NOTE_SIZE];
/// for counter in 0..16 {
///     bytes[12 + 4 * counter + 2] = 1; // off: 65,536
/// }
/// bytes[NOTE_SIZE - SET_SIZE] = 1; // the set of state 0
/// assert_eq!(Certificate::check(&list, &machine, &bytes)?.records(), 1);
/// assert_eq!(Certificate::check(&list, &machine, &[]), Err(Refusal::Certificate));
/// # Ok::<(), Refusal>(())
/// ```
#[derive(Clone, Copy, Debug, PartialEq, Eq)]
pub struct Certificate<'a> {
    list: List<'a>,
    machine: Machine<'a>,
    bytes: &'a [u8],
}

impl<'a> Certificate<'a> {
    /// Checks a certificate. It works through each record on each class of bytes, so its time is
    /// that of a walk of the list for each of them.
    ///
    /// # Errors
    ///
    /// [`Refusal::Certificate`] (22).
    pub fn check(list: &List<'a>, machine: &Machine<'a>, bytes: &'a [u8]) -> Result<Certificate<'a>, Refusal> {
        Refusal::verdict(call!(watch_check_certificate(&list.bytes, &machine.moves, &machine.programs, &bytes)))?;
        Ok(Certificate { list: *list, machine: *machine, bytes })
    }

    /// The list whose pairs the automaton tells.
    #[must_use]
    pub fn list(&self) -> List<'a> {
        self.list
    }

    /// The automaton.
    #[must_use]
    pub fn machine(&self) -> Machine<'a> {
        self.machine
    }

    /// The certificate's bytes.
    #[must_use]
    pub fn as_bytes(&self) -> &'a [u8] {
        self.bytes
    }

    /// The number of records.
    #[must_use]
    pub fn records(&self) -> usize {
        self.bytes.len() / NOTE_SIZE
    }
}
