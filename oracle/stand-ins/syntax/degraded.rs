//! Stand-in: degraded.rs is not among the sources, and nothing here names what it holds.
