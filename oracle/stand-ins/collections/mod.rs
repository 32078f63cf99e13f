//! Stand-in: the module file is not among the sources; map.rs is.
pub(crate) mod eytzinger;
pub(crate) mod map;
pub(crate) use map::EytzingerMap;
