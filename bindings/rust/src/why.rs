//! The questions why: the run of the automaton behind a pair, or behind a state of the frontier.

use crate::call::call;
use crate::{Flow, List, Refusal};

#[cfg(feature = "std")]
use crate::SET_SIZE;

/// What is asked of an offset.
#[derive(Clone, Copy, Debug, PartialEq, Eq, Hash)]
pub enum Question {
    /// Why a signature is told there.
    Signature(u32),
    /// Why a state is in the frontier there.
    State(u32),
}

impl List<'_> {
    /// Says why a pair is due, or a state in the frontier: the states of a run of the automaton
    /// that leads there, one for each offset from the flow's on.
    ///
    /// The flow is one saved before the piece, which begins at its offset; to ask from the opening
    /// on it is the flow that was opened, and the piece the flow's bytes. With n the bytes between
    /// the flow's offset and `offset`, `run` has to have n + 1 numbers and `work`
    /// [`SET_SIZE`](crate::SET_SIZE) × (n + 1) bytes. The first state is in the flow's frontier,
    /// each byte has an edge that leads from one state to the next, and the last accepts the
    /// signature, or is the state. Of all such runs it is the one with the lowest state at the end,
    /// then the lowest before it, and so on. `work` then holds the frontiers.
    ///
    /// For every pair that a feed told, by any engine, there is a run.
    ///
    /// # Errors
    ///
    /// 4 to 6 as in [`Flow::feed`], then [`Refusal::Place`] (25), then [`Refusal::NotDue`] (26),
    /// where there is no run. They change nothing.
    ///
    /// ```
    /// # use watch::{Flow, List, Question, Refusal, SET_SIZE};
    /// # let bytes = *b"\x01\x00\xFF\0\0\0\0\0\x01aa\0\0\0\x01\0\x01bb\0\x01\0\x02\0\x02\0\0\0\0\0\0\0\x03\0\0\0\x02\0\x07\0";
    /// let list = List::check(&bytes)?; // signature 7 after any "ab"
    /// let flow = Flow::open_all(&list, |_| ());
    /// let (mut run, mut work) = ([0; 5], [0; 5 * SET_SIZE]);
    /// assert_eq!(list.why(&flow, b"abab", Question::Signature(7), 4, &mut run, &mut work)?, [0, 0, 0, 1, 2]);
    /// assert_eq!(list.why(&flow, b"abab", Question::State(1), 3, &mut run, &mut work)?, [0, 0, 0, 1]);
    /// assert_eq!(list.why(&flow, b"abab", Question::Signature(7), 3, &mut run, &mut work), Err(Refusal::NotDue));
    /// assert_eq!(list.why(&flow, b"abab", Question::Signature(7), 5, &mut run, &mut work), Err(Refusal::Place));
    /// assert_eq!(list.edge(0, b'a', 1), Some(1)); // record 1, which begins at byte 8
    /// # Ok::<(), Refusal>(())
    /// ```
    pub fn why<'r>(
        &self,
        flow: &Flow,
        piece: &[u8],
        question: Question,
        offset: u64,
        run: &'r mut [u16],
        work: &mut [u8],
    ) -> Result<&'r [u16], Refusal> {
        let (list, record, start) = (self.bytes, &flow.bytes, u64::from(flow.offset()));
        let number = match question {
            Question::Signature(signature) => {
                call!(watch_why(&list, &record, start, &piece, signature, offset, &mut run, &mut work))
            }
            Question::State(state) => {
                call!(watch_why_state(&list, &record, start, &piece, state, offset, &mut run, &mut work))
            }
        };
        Refusal::verdict(number)?;
        Ok(&run[..(offset - start) as usize + 1])
    }

    /// The same, in memory of its own.
    ///
    /// # Errors
    ///
    /// Those of [`why`](List::why).
    ///
    /// ```
    /// # use watch::{Flow, List, Question, Refusal};
    /// let compiled = List::compile(b"b+", 7).unwrap();
    /// let list = compiled.list();
    /// let flow = Flow::open_all(&list, |_| ());
    /// assert_eq!(list.why_all(&flow, b"abb", Question::Signature(7), 3)?.len(), 4);
    /// # Ok::<(), Refusal>(())
    /// ```
    #[cfg(feature = "std")]
    pub fn why_all(
        &self,
        flow: &Flow,
        piece: &[u8],
        question: Question,
        offset: u64,
    ) -> Result<std::vec::Vec<u16>, Refusal> {
        let states = offset.saturating_sub(u64::from(flow.offset())).min(piece.len() as u64) as usize + 1;
        let mut run = std::vec![0; states];
        let told = self.why(flow, piece, question, offset, &mut run, &mut std::vec![0; states * SET_SIZE])?.len();
        run.truncate(told);
        Ok(run)
    }

    /// The first record of the list, counted from 0, that is an edge from one state to another
    /// which the byte takes; `None` where there is none.
    #[must_use]
    pub fn edge(&self, from: u16, byte: u8, to: u16) -> Option<usize> {
        let found = call!(watch_edge(&self.bytes, u32::from(from), u32::from(byte), u32::from(to)));
        Refusal::verdict(found.refusal).ok().map(|()| found.record as usize)
    }
}
