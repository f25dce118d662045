//! Stand-in, and the door to what is private to the parent: recording commit
//! terms, and the owner of the committed prefix.

use rafter::{LogIndex, NodeId, Term};

use super::CommitHistory;

#[derive(Clone, Debug, Eq, Hash, Ord, PartialEq, PartialOrd)]
pub(crate) struct ConfigurationProposalWitness;

impl CommitHistory {
    /// Panics where `old` exceeds `new`: refusal 8. (The Rust's own entrance,
    /// `record_seeded_commit_authority`, drops term zero and will not do.)
    pub(in crate::model_check) fn commit_terms(
        &mut self,
        old: LogIndex,
        new: LogIndex,
        term: Term,
    ) {
        self.record_commit_terms(old, new, term);
    }

    pub(in crate::model_check) fn owner(&self) -> Option<NodeId> {
        self.committed_prefix_owner
    }
}
