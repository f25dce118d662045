//! Stand-in, and the door to what is visible only below `state`.

use std::collections::{BTreeMap, BTreeSet};

use rafter::{CommittedConfiguration, LogIndex, NodeId, SharedPayload};

use crate::model_check::observations::ObservationSet;
use crate::Cluster;

use super::application::InstrumentedCluster;
use super::application_history::ApplicationHistory;
use super::client::ClientHistory;
use super::commit::CommitHistory;
use super::election::ElectionHistory;
use super::logical_log::LogicalLogHistory;
use super::purpose::PurposeWitnessHistory;
use super::snapshot::SnapshotHistory;
use super::{ExplorationState, TransitionInstrumentationError};

impl CommitHistory {
    /// `observe_committed_prefixes`, for the driver.
    pub(in crate::model_check) fn observe_commit(
        &mut self,
        cluster: &Cluster,
        logs: &LogicalLogHistory,
    ) -> ObservationSet {
        self.observe_committed_prefixes(cluster, logs)
    }

    /// `record_leader_completeness`, for the driver.
    pub(in crate::model_check) fn check_leaders(
        &mut self,
        elections: &ElectionHistory,
    ) -> ObservationSet {
        self.record_leader_completeness(elections)
    }
}

impl ExplorationState {
    /// A state with the floors and nodes of some rows, and nothing else.
    pub(in crate::model_check) fn of_rows(
        cluster: Cluster,
        commit_floors: BTreeMap<NodeId, LogIndex>,
        configuration_floors: BTreeMap<NodeId, Option<CommittedConfiguration>>,
    ) -> Self {
        Self {
            cluster: InstrumentedCluster(cluster),
            proposals_issued: 0,
            restarts_issued: 0,
            read_indexes_issued: 0,
            membership_changes_issued: 0,
            transfers_issued: 0,
            partitions_issued: 0,
            lossy_restarts_issued: 0,
            commit_floor_by_node: commit_floors,
            committed_configuration_floor_by_node: configuration_floors,
            application_history: ApplicationHistory::default(),
            client_history: ClientHistory::default(),
            required_applied_payloads: BTreeMap::new(),
            required_committed_configurations: BTreeMap::new(),
            required_commit_indexes: BTreeSet::new(),
            election_history: ElectionHistory::default(),
            logical_log_history: LogicalLogHistory::default(),
            commit_history: CommitHistory::default(),
            snapshot_history: SnapshotHistory,
            purpose_witness_history: PurposeWitnessHistory,
            observations: ObservationSet::default(),
            transition_instrumentation_errors: BTreeSet::new(),
        }
    }

    pub(in crate::model_check) fn cluster(&self) -> &Cluster {
        &self.cluster
    }

    pub(in crate::model_check) fn proposals_issued(&self) -> u64 {
        self.proposals_issued
    }

    pub(in crate::model_check) fn commit_floor_by_node(&self) -> &BTreeMap<NodeId, LogIndex> {
        &self.commit_floor_by_node
    }

    pub(in crate::model_check) fn committed_configuration_floor_by_node(
        &self,
    ) -> &BTreeMap<NodeId, Option<CommittedConfiguration>> {
        &self.committed_configuration_floor_by_node
    }

    pub(in crate::model_check) fn client_history(&self) -> &ClientHistory {
        &self.client_history
    }

    pub(in crate::model_check) fn required_applied_payloads(
        &self,
    ) -> &BTreeMap<(NodeId, LogIndex), SharedPayload> {
        &self.required_applied_payloads
    }

    pub(in crate::model_check) fn required_committed_configurations(
        &self,
    ) -> &BTreeMap<(NodeId, LogIndex), CommittedConfiguration> {
        &self.required_committed_configurations
    }

    pub(in crate::model_check) fn execution_instrumentation_errors(&self) -> &BTreeSet<String> {
        &self.application_history.errors
    }

    pub(in crate::model_check) fn execution_history_violations(
        &self,
    ) -> &BTreeSet<TransitionInstrumentationError> {
        &self.application_history.violations
    }
}
