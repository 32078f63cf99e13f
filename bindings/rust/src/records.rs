//! Records that stand one behind the other.

use std::iter::FusedIterator;
use std::marker::PhantomData;

use crate::record::Record;

/// A run of records of one kind, read as they are asked for: of [`Content`](crate::Content),
/// [`Segment`](crate::Segment), [`SourceNode`](crate::SourceNode), [`PairLink`](crate::PairLink),
/// [`ContainerPair`](crate::ContainerPair) or [`Diagnostic`](crate::Diagnostic).
#[derive(Debug, Clone)]
pub struct Records<'a, R> {
    tape: &'a [u8],
    kind: PhantomData<fn() -> R>,
}

impl<'a, R: Record> Records<'a, R> {
    /// Of a part of an accepted tape that has records of this kind and nothing else.
    pub(crate) const fn new(tape: &'a [u8]) -> Self {
        Self { tape, kind: PhantomData }
    }

    /// Is each of them a record of section 4?
    pub(crate) fn all_shaped(&self) -> bool {
        self.tape.len().is_multiple_of(R::SIZE)
            && self.tape.chunks(R::SIZE).all(|record| R::at(record).is_some())
    }

    /// Some of them, if there are so many.
    pub(crate) fn part(&self, start: usize, len: usize) -> Option<Self> {
        let end = start.checked_add(len)?;
        Some(Self::new(self.tape.get(start.checked_mul(R::SIZE)?..end.checked_mul(R::SIZE)?)?))
    }

    /// The one at a place, if there are so many.
    pub(crate) fn at(&self, place: usize) -> Option<R> {
        self.part(place, 1)?.next()
    }
}

impl<R: Record> Iterator for Records<'_, R> {
    type Item = R;

    fn next(&mut self) -> Option<R> {
        let (first, rest) = self.tape.split_at_checked(R::SIZE)?;
        self.tape = rest;
        // Each record was looked at when the book was made, or the proved lookup says that it is
        // one.
        R::at(first)
    }

    fn size_hint(&self) -> (usize, Option<usize>) {
        let len = self.tape.len() / R::SIZE;
        (len, Some(len))
    }

    fn nth(&mut self, n: usize) -> Option<R> {
        self.tape =
            n.checked_mul(R::SIZE).and_then(|skip| self.tape.get(skip..)).unwrap_or_default();
        self.next()
    }
}

impl<R: Record> DoubleEndedIterator for Records<'_, R> {
    fn next_back(&mut self) -> Option<R> {
        let (rest, last) = self.tape.split_at_checked(self.tape.len().checked_sub(R::SIZE)?)?;
        self.tape = rest;
        R::at(last)
    }
}

impl<R: Record> ExactSizeIterator for Records<'_, R> {}
impl<R: Record> FusedIterator for Records<'_, R> {}
