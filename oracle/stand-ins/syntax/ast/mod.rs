//! Stand-in: the module file is not among the sources.
pub(crate) mod graft;
pub(crate) mod intern;
pub(crate) mod output;
pub(crate) mod payload;
pub(crate) mod registry;
pub(crate) mod store;
pub(crate) use output::{LexOutput, RegionOutput, SanitizedText, SourceNode};
pub(crate) use payload::Node;
pub(crate) use registry::{ContainerPair, NodeRef, Registry};
pub(crate) use store::NodeStore;
