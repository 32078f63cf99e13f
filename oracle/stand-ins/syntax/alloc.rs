//! Stand-in: alloc.rs is not among the sources, and nothing here names what it holds.
