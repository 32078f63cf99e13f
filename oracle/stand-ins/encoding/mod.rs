//! Stand-in: the module file is not among the sources; gaiji.rs is.
pub(crate) mod gaiji;
pub(crate) mod jisx0213_table;
