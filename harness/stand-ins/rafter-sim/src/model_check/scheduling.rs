//! Stand-in: an empty shell, nothing is scheduled.

use rafter::NodeId;

use super::ProposalId;

pub(super) enum Operation {
    Tick(NodeId),
    Propose {
        to: NodeId,
        proposal_id: ProposalId,
        stale_leader: bool,
    },
    DeliverReadyAt(usize),
}
