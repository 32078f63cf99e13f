//! Stand-in: the module file is not among the sources, nor are `Diagnostic` and `Sentinel`; what is used of them stands here. The tape has a
//! code rank in place of `code()`: ten digits of it are the code, so that byte order is the order of ranks.
pub(crate) mod offset;
pub(crate) mod pair;
pub(crate) mod span;
pub(crate) use offset::{NormalizedOffset, SourceOffset};
pub use pair::{PairKind, PairLink};
pub use span::Span;

pub(crate) enum Sentinel {
    Inline,
    BlockLeaf,
    BlockOpen,
    BlockClose,
}

impl PartialEq for Sentinel {
    fn eq(&self, other: &Self) -> bool {
        core::mem::discriminant(self) == core::mem::discriminant(other)
    }
}

#[derive(Debug, Clone)]
pub(crate) struct DiagnosticRest {
    pub(crate) span: Span,
    pub(crate) code: [u8; 10],
    pub(crate) rank: u32,
    pub(crate) plain: u32,
    /// to put equal keys in their order again: its list as a merge joins them (0 the old book's before the region, 1 the reading's, 2 the old
    /// book's behind it) and the place there
    pub(crate) place: (u8, u32),
}

#[derive(Debug, Clone)]
pub(crate) enum Diagnostic {
    UnresolvedGaiji { rest: DiagnosticRest },
    NonCanonicalDirective { rest: DiagnosticRest },
    UnclosedBracket { rest: DiagnosticRest },
    UnmatchedClose { rest: DiagnosticRest },
    Other { rest: DiagnosticRest },
}

impl Diagnostic {
    pub(crate) fn new(kind: u8, rank: u32, span: Span, plain: u32, place: u32) -> Option<Self> {
        let mut code = [b'0'; 10];
        let mut left = rank;
        for digit in code.iter_mut().rev() {
            *digit += (left % 10) as u8;
            left /= 10;
        }
        let rest = DiagnosticRest { span, code, rank, plain, place: (0, place) };
        Some(match kind {
            0 => Self::UnresolvedGaiji { rest },
            1 => Self::NonCanonicalDirective { rest },
            2 => Self::UnclosedBracket { rest },
            3 => Self::UnmatchedClose { rest },
            4 => Self::Other { rest },
            _ => return None,
        })
    }
    pub(crate) fn rest(&self) -> &DiagnosticRest {
        match self {
            Self::UnresolvedGaiji { rest }
            | Self::NonCanonicalDirective { rest }
            | Self::UnclosedBracket { rest }
            | Self::UnmatchedClose { rest }
            | Self::Other { rest } => rest,
        }
    }
    pub(crate) fn set_place(&mut self, place: (u8, u32)) {
        self.rest_mut().place = place;
    }
    /// One of a reading, not of a book.
    pub(crate) fn set_read(&mut self) {
        self.rest_mut().place.0 = 1;
    }
    fn rest_mut(&mut self) -> &mut DiagnosticRest {
        match self {
            Self::UnresolvedGaiji { rest }
            | Self::NonCanonicalDirective { rest }
            | Self::UnclosedBracket { rest }
            | Self::UnmatchedClose { rest }
            | Self::Other { rest } => rest,
        }
    }
    pub(crate) fn kind(&self) -> u8 {
        match self {
            Self::UnresolvedGaiji { .. } => 0,
            Self::NonCanonicalDirective { .. } => 1,
            Self::UnclosedBracket { .. } => 2,
            Self::UnmatchedClose { .. } => 3,
            Self::Other { .. } => 4,
        }
    }
    pub(crate) fn span(&self) -> Span {
        self.rest().span
    }
    pub(crate) fn code(&self) -> &str {
        core::str::from_utf8(&self.rest().code).expect("ten digits")
    }
    pub(crate) fn shifted(mut self, by: i64) -> Self {
        let rest = self.rest_mut();
        rest.span = rest.span.shifted(by);
        // a merge moves the reading's, and of the old book's those behind the region alone
        if rest.place.0 == 0 {
            rest.place.0 = 2;
        }
        self
    }
}
