//! Stand-in: eytzinger.rs is not among the sources; what map.rs calls of it. The merge builds the map and asks nothing of it.
use core::cmp::Ordering;

#[derive(Debug, Clone)]
pub(crate) struct EytzingerArray<K>(Vec<K>);

impl<K> EytzingerArray<K> {
    pub(crate) const fn new() -> Self {
        Self(Vec::new())
    }
    pub(crate) fn from_layout(layout: Vec<K>) -> Self {
        Self(layout)
    }
    pub(crate) fn len(&self) -> usize {
        self.0.len()
    }
    pub(crate) fn is_empty(&self) -> bool {
        self.0.is_empty()
    }
    pub(crate) fn get(&self, at: usize) -> Option<&K> {
        self.0.get(at)
    }
}

impl<K: Ord> EytzingerArray<K> {
    pub(crate) fn search(&self, key: &K) -> Option<usize> {
        let mut at = 0;
        while let Some(here) = self.0.get(at) {
            at = match key.cmp(here) {
                Ordering::Equal => return Some(at),
                Ordering::Less => 2 * at + 1,
                Ordering::Greater => 2 * at + 2,
            };
        }
        None
    }
}
