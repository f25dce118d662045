//! Stand-in: what a failure carries.

use rafter::{LogIndex, NodeId, Role, Term};

mod failure;

pub use failure::{Failure, FailureKind};

#[derive(Clone, Copy, Debug, Eq, Hash, Ord, PartialEq, PartialOrd)]
pub struct ProposalId(pub u64);

#[derive(Clone, Debug, Eq, Hash, PartialEq)]
pub struct Action;

pub enum ReplayCheck {
    ElectionSafety,
    CommitSafety,
}

#[derive(Clone, Debug, Eq, PartialEq)]
pub struct StateSummary {
    pub nodes: Vec<NodeSummary>,
}

#[derive(Clone, Debug, Eq, PartialEq)]
pub struct NodeSummary {
    pub node_id: NodeId,
    pub term: Term,
    pub role: Role,
    pub commit_index: LogIndex,
    pub snapshot_index: LogIndex,
    pub first_log_index: LogIndex,
    pub last_log_index: LogIndex,
    pub retained_log_len: usize,
}
