//! The reread nodes of a house, split by desk.

use std::fmt;

/// How many desks there can be (their numbers are 0 to 63), and so how many totals a ledger has.
pub const DESKS: usize = 64;

/// The reread nodes of a house by desk, from which its invoice is written (wish 4 of document 02).
/// [`merge_for_desk`](crate::merge_for_desk) adds to it.
///
/// Printed, it is that invoice: a line for each desk that has something, and the sum over all.
///
/// ```
/// use aozora_incremental::Ledger;
///
/// let mut totals = [0; 64];
/// (totals[3], totals[17]) = (1200, 1);
/// let ledger = Ledger::from(totals);
///
/// assert_eq!((ledger.total(17), ledger.total(18), ledger.total(64)), (Some(1), Some(0), None));
/// assert!(ledger.charged().eq([(3, 1200), (17, 1)]));
/// assert_eq!(ledger.sum(), 1201);
/// assert_eq!(
///     ledger.to_string(),
///     "desk  3 reread 1200\n\
///      desk 17 reread    1\n\
///      sum     reread 1201"
/// );
/// ```
#[derive(Debug, Clone, PartialEq, Eq)]
pub struct Ledger {
    pub(crate) totals: [u32; DESKS],
}

impl Ledger {
    /// All totals 0.
    #[must_use]
    pub const fn new() -> Self {
        Self { totals: [0; DESKS] }
    }

    /// The total of a desk, if it is one of 0 to 63.
    #[must_use]
    pub fn total(&self, desk: u32) -> Option<u32> {
        self.totals.get(desk as usize).copied()
    }

    /// All totals, desk 0 first.
    #[must_use]
    pub const fn totals(&self) -> &[u32; DESKS] {
        &self.totals
    }

    /// The desks that have something, in order, each with its total.
    pub fn charged(&self) -> impl Iterator<Item = (u32, u32)> {
        (0..).zip(self.totals).filter(|&(_, total)| total > 0)
    }

    /// All totals together.
    #[must_use]
    pub fn sum(&self) -> u64 {
        self.totals.iter().map(|&total| u64::from(total)).sum()
    }
}

impl Default for Ledger {
    fn default() -> Self {
        Self::new()
    }
}

/// The totals of an earlier day.
impl From<[u32; DESKS]> for Ledger {
    fn from(totals: [u32; DESKS]) -> Self {
        Self { totals }
    }
}

/// The invoice, in the words of [`Merged`](crate::Merged)'s line.
impl fmt::Display for Ledger {
    fn fmt(&self, f: &mut fmt::Formatter<'_>) -> fmt::Result {
        let sum = self.sum();
        if sum == 0 {
            return f.write_str("no desk has rereads");
        }
        let width = sum.to_string().len();
        for (desk, total) in self.charged() {
            writeln!(f, "desk {desk:>2} reread {total:>width$}")?;
        }
        write!(f, "sum     reread {sum:>width$}")
    }
}
