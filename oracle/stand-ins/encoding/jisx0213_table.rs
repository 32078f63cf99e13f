//! Stand-in: the tables are not among the sources. They are empty here; the merge resolves no gaiji.
use core::marker::PhantomData;

pub(crate) struct Table<V>(PhantomData<V>);

impl<V> Table<V> {
    pub(crate) fn get(&self, _key: &str) -> Option<&V> {
        None
    }
    pub(crate) fn contains_key(&self, _key: &str) -> bool {
        false
    }
    pub(crate) fn len(&self) -> usize {
        0
    }
}

pub(crate) static DESCRIPTION_TO_CHAR: Table<char> = Table(PhantomData);
pub(crate) static JISX0213_MENCODE_TO_CHAR: Table<char> = Table(PhantomData);
pub(crate) static JISX0213_MENCODE_TO_STR: Table<&'static str> = Table(PhantomData);
pub(crate) static ROMAN_NUMERAL_LOWER: [&str; 0] = [];
pub(crate) static ROMAN_NUMERAL_UPPER: [&str; 0] = [];
