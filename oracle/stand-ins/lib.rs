//! Stand-in: the crate's own lib.rs is not among the sources. The modules that `reparse` needs, and `tape` and `judge`, which are ours (oracle/src).
#![allow(dead_code, unused_imports, unexpected_cfgs, unfulfilled_lint_expectations, clippy::all)]
mod collections;
mod encoding;
mod incremental;
mod pipeline;
mod spec;
mod syntax;

pub mod judge;
pub mod tape;

pub use spec::Span;
