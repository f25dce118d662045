//! Stand-in: what the histories and invariants ask of a cluster.
//!
//! A cluster here is the nodes that one record names; all else is empty.

use std::collections::{BTreeMap, BTreeSet, VecDeque};

use rafter::{BootstrapState, CommittedConfiguration, LogIndex, Node, NodeId, Role};

use crate::records::ExecutionLedger;
use crate::time::SimRng;
use crate::{
    Applied, Cluster, ExecutionWitness, ReadGranted, ReadRegistered, SimClock, SnapshotInstalled,
};

impl Cluster {
    pub(crate) fn of(nodes: BTreeMap<NodeId, Node>) -> Self {
        Self {
            clock: SimClock::default(),
            configs: BTreeMap::new(),
            nodes,
            network: VecDeque::new(),
            rng: SimRng,
            applied: Vec::new(),
            execution_history: ExecutionLedger::default(),
            execution_cursors: BTreeMap::new(),
            initial_reference_states: BTreeMap::new(),
            application_epochs: BTreeMap::new(),
            application_epoch_start_floors: BTreeMap::new(),
            durable_applied: BTreeMap::new(),
            snapshot_installs: Vec::new(),
            snapshot_sources: BTreeMap::new(),
            snapshot_staging: BTreeMap::new(),
            read_grants: Vec::new(),
            read_registrations: Vec::new(),
            read_terminal_outputs: Vec::new(),
            retired_read_operations: BTreeSet::new(),
            read_output_correlation_errors: BTreeSet::new(),
            proposal_rejections: Vec::new(),
            transfer_rejections: Vec::new(),
            blocked_pairs: BTreeSet::new(),
            delivered_ack_floor: BTreeMap::new(),
            synced_marks: BTreeMap::new(),
        }
    }

    pub(crate) fn bootstrap_state(&self, node_id: NodeId) -> BootstrapState {
        BootstrapState {
            snapshot: None,
            log: self.nodes[&node_id].log.clone(),
        }
    }

    pub(crate) fn role(&self, node_id: NodeId) -> Role {
        self.nodes[&node_id].role
    }

    pub(crate) fn commit_index(&self, node_id: NodeId) -> LogIndex {
        self.nodes[&node_id].commit_index
    }

    pub(crate) fn committed_configuration_state(
        &self,
        node_id: NodeId,
    ) -> Option<CommittedConfiguration> {
        self.nodes[&node_id].committed_configuration
    }

    pub(crate) fn application_epoch(&self, _node_id: NodeId) -> u64 {
        0
    }

    pub(crate) fn application_epoch_start_floors(&self) -> &BTreeMap<(NodeId, u64), LogIndex> {
        &self.application_epoch_start_floors
    }

    pub(crate) fn applied(&self) -> &[Applied] {
        &self.applied
    }

    pub(crate) fn execution_history(&self) -> impl Iterator<Item = &ExecutionWitness> {
        self.execution_history.0.iter()
    }

    pub(crate) fn snapshot_installs(&self) -> &[SnapshotInstalled] {
        &self.snapshot_installs
    }

    pub(crate) fn read_grants(&self) -> &[ReadGranted] {
        &self.read_grants
    }

    pub(crate) fn read_registrations(&self) -> &[ReadRegistered] {
        &self.read_registrations
    }

    pub(crate) fn read_output_correlation_errors(&self) -> &BTreeSet<String> {
        &self.read_output_correlation_errors
    }
}
