//! The returned numbers of documents 01 and 02.

use std::error::Error;
use std::fmt;

/// Why a call was refused: one variant for each number of the table "Returned numbers" of document
/// 01, and for 19 and 20 of document 02, wish 4.
///
/// Every entry is proved to answer a result, or the first of these whose condition holds. The order
/// is: the old book, 1 to 7; the edit, 8; the replacement, 2; the new text, 3; then 9, 10, 11; the
/// reading, 1 to 7; then 12 to 18. So a number from 1 to 7 may be about the book or about the
/// reading; [`check_book`](crate::check_book) and [`check_reading`](crate::check_reading) tell
/// which. Only [`merge_for_desk`](crate::merge_for_desk) has 19, before all of these, and 20,
/// behind them.
#[derive(Debug, Clone, Copy, PartialEq, Eq, PartialOrd, Ord, Hash)]
#[repr(u32)]
pub enum Refusal {
    /// 1: a tape or byte buffer breaks the layout; a book has no layer; a reading has not exactly
    /// one layer.
    Layout = 1,
    /// 2: a text, normalized text, string or replacement is not UTF-8.
    NotUtf8 = 2,
    /// 3: a text or normalized text is over [`MAX_TEXT`](crate::MAX_TEXT) bytes, a pool over
    /// [`MAX_POOL`](crate::MAX_POOL), another list over [`MAX_LIST`](crate::MAX_LIST), or there are
    /// more than [`MAX_LAYERS`](crate::MAX_LAYERS) layers.
    OverLimit = 3,
    /// 4: an id or range lies outside of its pool, or a range across layers.
    IdOrRange = 4,
    /// 5: the level of a segment.
    Level = 5,
    /// 6: spans, normalized offsets in images, pairs, containers, diagnostics. Of these a
    /// [`Diagnostic`](crate::Diagnostic) may have an empty span, no other (document 02, wish 5).
    Place = 6,
    /// 7: the normalized length is not the text's length with all drift.
    NormalizedLength = 7,
    /// 8: the edit starts behind its end, ends behind the text, or falls inside a character.
    Edit = 8,
    /// 9: the new text equals the old.
    SameText = 9,
    /// 10: `has_ruby_format_dependency`.
    RubyFormatDependency = 10,
    /// 11: the region would be the whole text.
    WholeText = 11,
    /// 12: the reading's text differs from the new region's.
    OtherText = 12,
    /// 13: `balanced_nodes` is false.
    Unbalanced = 13,
    /// 14: the reading has a diagnostic of kind `UnclosedBracket` or `UnmatchedClose`; or the region
    /// is empty, which it is only where text is added at the end of a text that ends in a newline,
    /// and the old book has a diagnostic of no width there, of any kind (document 02, wish 5).
    /// [`Diagnostic`](crate::Diagnostic) says what to do then.
    Unclosed = 14,
    /// 15: `introduces_ruby_format_dependency`.
    NewRubyFormatDependency = 15,
    /// 16: a cut falls inside a normalized character.
    CutInCharacter = 16,
    /// 17: the reading has nodes and the old book has 32 layers. [`flatten_book`] makes them one.
    ///
    /// [`flatten_book`]: crate::flatten_book
    LayersFull = 17,
    /// 18: the result passes a limit of 3, its new layer has more than 3583 strings, a result
    /// buffer is too short, or fewer than [`WORK_WORDS`](crate::WORK_WORDS) work words are lent. Of a
    /// merge, a flattening or a copy.
    NoRoom = 18,
    /// 19: the desk is above 63, or the ledger has not exactly [`DESKS`](crate::DESKS) totals.
    DeskOrLedger = 19,
    /// 20: the desk's total would pass 4294967295.
    TotalFull = 20,
}

impl Refusal {
    /// All of them, number 1 first.
    pub const ALL: [Self; 20] = [
        Self::Layout,
        Self::NotUtf8,
        Self::OverLimit,
        Self::IdOrRange,
        Self::Level,
        Self::Place,
        Self::NormalizedLength,
        Self::Edit,
        Self::SameText,
        Self::RubyFormatDependency,
        Self::WholeText,
        Self::OtherText,
        Self::Unbalanced,
        Self::Unclosed,
        Self::NewRubyFormatDependency,
        Self::CutInCharacter,
        Self::LayersFull,
        Self::NoRoom,
        Self::DeskOrLedger,
        Self::TotalFull,
    ];

    /// The number of documents 01 and 02, 1 to 20.
    #[must_use]
    pub const fn number(self) -> u32 {
        self as u32
    }

    /// What was wrong, and what to look at.
    #[must_use]
    pub const fn message(self) -> &'static str {
        match self {
            Self::Layout => {
                "the tape or the byte buffer is not laid out as a book or a reading: look at the order and the sizes of the records, \
                 at kinds, tags and unused words, at the buffer's length, and at the layers (a book has at least one, a reading exactly one)"
            }
            Self::NotUtf8 => {
                "a text, a normalized text, a string or the replacement is not UTF-8: look for a character that was cut in two"
            }
            Self::OverLimit => {
                "a limit is passed: a text may have 16777215 bytes, a pool 1048575 items, another list 262143, a book 32 layers"
            }
            Self::IdOrRange => {
                "an id or a range points outside of its pool, or a range runs across two layers: look at the string ids and ranges of contents, \
                 segments and nodes"
            }
            Self::Level => {
                "a segment has a wrong level: it is 0 but for a Node segment, whose level is 1 to 32 and above all levels in the runs it names"
            }
            Self::Place => {
                "something lies at an impossible place: look for empty, overlapping or unordered node spans, for spans past the text, for a \
                 normalized offset outside of its node's image, at pairs and containers, and for a diagnostic whose start is behind its end"
            }
            Self::NormalizedLength => {
                "the normalized text is not as long as the text and the nodes' images make it: an image has 3 bytes, or 7 with padding"
            }
            Self::Edit => {
                "the edit does not fit the text: its start is behind its end, its end behind the text, or one of them inside a character"
            }
            Self::SameText => {
                "the edit changes nothing: the replacement is what stands there already"
            }
            Self::RubyFormatDependency => {
                "a Referenced Format that ends behind the edit's start has the base of an earlier Ruby as its target: parse the whole text"
            }
            Self::WholeText => {
                "there is no safe cut around the edit, so the passage to reread would be the whole text: parse the whole text"
            }
            Self::OtherText => {
                "the reading is of another text than the corrected passage: ask for the region again and read that part of the new text"
            }
            Self::Unbalanced => {
                "the reading opens a block or warichu that it does not close, or closes one that it did not open: parse the whole text"
            }
            Self::Unclosed => {
                "the reading has a bracket without its partner (UnclosedBracket or UnmatchedClose): parse the whole text; or text is added at the end of a \
                 text that ends in a newline, and the old book has a diagnostic of no width there: let the edit begin at that newline and write it again before \
                 the new text, or parse the whole text"
            }
            Self::NewRubyFormatDependency => {
                "the reading has a Ruby and a Referenced Format follows the passage, or it has a Referenced Format whose target is the base of an earlier \
                 Ruby: parse the whole text"
            }
            Self::CutInCharacter => {
                "the passage begins or ends inside a character of the normalized text: the normalized text is not the images of the nodes"
            }
            Self::LayersFull => {
                "the book has 32 layers already and the reading would add one: flatten the book and merge again, or parse the whole text; either gives a book of one layer with new ids and ranges"
            }
            Self::NoRoom => {
                "the result does not fit: a result buffer is too short, fewer than 16384 work words are lent, the merged or flat book passes a limit, or \
                 its new layer has more than 3583 strings"
            }
            Self::DeskOrLedger => {
                "there is no such desk, or the ledger has another length: desks are 0 to 63, and a ledger has exactly 64 totals"
            }
            Self::TotalFull => {
                "the desk's total would pass 4294967295: write the invoice and begin a new ledger"
            }
        }
    }

    /// Of the number that the archive answered, 0 where it accepted.
    pub(crate) fn of_answer(number: u32) -> Result<(), Self> {
        match number {
            0 => Ok(()),
            n => Err(Self::try_from(n).unwrap_or_else(|_| stranger(n))),
        }
    }
}

/// The contracts of the archive give 0 to 20 only; another number means that another library was
/// linked under its name.
#[expect(clippy::unreachable, reason = "the contracts of all entries exclude it")]
fn stranger(number: u32) -> Refusal {
    unreachable!("the linked archive answered {number}, which the contract of every entry excludes")
}

impl fmt::Display for Refusal {
    fn fmt(&self, f: &mut fmt::Formatter<'_>) -> fmt::Result {
        write!(f, "refused {}: {}", self.number(), self.message())
    }
}

impl Error for Refusal {}

impl From<Refusal> for u32 {
    fn from(refusal: Refusal) -> Self {
        refusal.number()
    }
}

/// A number that is not one of 1 to 20.
#[derive(Debug, Clone, Copy, PartialEq, Eq, Hash)]
pub struct NotARefusal(
    /// The number.
    pub u32,
);

impl fmt::Display for NotARefusal {
    fn fmt(&self, f: &mut fmt::Formatter<'_>) -> fmt::Result {
        write!(f, "{} is not the number of a refusal, 1 to 20", self.0)
    }
}

impl Error for NotARefusal {}

impl TryFrom<u32> for Refusal {
    type Error = NotARefusal;

    fn try_from(number: u32) -> Result<Self, NotARefusal> {
        let place = (number as usize).checked_sub(1);
        place.and_then(|i| Self::ALL.get(i)).copied().ok_or(NotARefusal(number))
    }
}
