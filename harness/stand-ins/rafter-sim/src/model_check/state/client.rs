//! Stand-in: there are no clients.

use std::collections::{BTreeMap, BTreeSet};

use rafter::{LogIndex, NodeId};

use crate::model_check::ProposalId;

#[derive(Clone, Debug, Default, Hash)]
pub(in crate::model_check) struct ClientHistory {
    pub(in crate::model_check) reads: BTreeMap<u64, ClientRead>,
    pub(in crate::model_check) writes: BTreeMap<u64, ClientWrite>,
    pub(in crate::model_check) instrumentation_errors: BTreeSet<String>,
    pub(in crate::model_check) read_instrumentation_errors: BTreeSet<String>,
}

#[derive(Clone, Debug, Hash)]
pub(in crate::model_check) struct ClientRead {
    pub(in crate::model_check) node_id: NodeId,
    pub(in crate::model_check) request_id: u64,
    pub(in crate::model_check) committed_floor: LogIndex,
    pub(in crate::model_check) outcome: ClientReadOutcome,
}

#[derive(Clone, Debug, Hash)]
pub(in crate::model_check) enum ClientReadOutcome {
    Pending,
    Rejected {},
    Canceled {},
    ProofGranted { proof: ClientReadProof },
    Completed { proof: ClientReadProof, value: () },
}

#[derive(Clone, Copy, Debug, Hash)]
pub(in crate::model_check) struct ClientReadProof {
    pub(in crate::model_check) read_index: LogIndex,
    pub(in crate::model_check) local_applied_index: LogIndex,
}

#[derive(Clone, Debug, Hash)]
pub(in crate::model_check) struct ClientWrite {
    pub(in crate::model_check) proposal_id: ProposalId,
    pub(in crate::model_check) status: ClientWriteStatus,
}

#[derive(Clone, Debug, Hash)]
pub(in crate::model_check) enum ClientWriteStatus {
    Pending,
    Completed { index: LogIndex, value: () },
}
