//! Stand-in, and the door by which an election record comes in: the file that
//! makes certificates out of votes is not at hand.

use std::collections::BTreeSet;

use rafter::{LogIndex, MembershipConfig, NodeId, Term};

use super::{ElectionCertificate, ElectionHistory, LogPrefixWitness};

impl ElectionHistory {
    /// A certificate with what `record_leader_completeness` reads of it; who
    /// voted, and the last log index and term, are left empty.
    pub(in crate::model_check) fn elect(
        &mut self,
        leader: NodeId,
        term: Term,
        log: Option<LogPrefixWitness>,
    ) {
        let certificate = ElectionCertificate {
            leader_id: leader,
            term,
            membership: MembershipConfig::default(),
            granted_by: BTreeSet::new(),
            last_log_index: LogIndex::ZERO,
            last_log_term: Term::default(),
            logical_prefix_at_election: log,
        };
        self.elected_by_term
            .entry(term)
            .or_default()
            .push(certificate);
    }
}
