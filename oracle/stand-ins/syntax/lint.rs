//! Stand-in: lint.rs is not among the sources, and nothing here names what it holds.
