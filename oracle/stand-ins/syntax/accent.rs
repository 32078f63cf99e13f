//! Stand-in: accent.rs is not among the sources, and nothing here names what it holds.
