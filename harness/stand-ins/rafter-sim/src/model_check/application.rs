//! Stand-in: a cluster that nothing drives, and names that state.rs hands on.

use std::ops::Deref;

use crate::model_check::scheduling::Operation;
use crate::Cluster;

use super::ExplorationState;

#[derive(Clone, Debug, Hash)]
pub(super) struct InstrumentedCluster(pub(super) Cluster);

impl Deref for InstrumentedCluster {
    type Target = Cluster;

    fn deref(&self) -> &Cluster {
        &self.0
    }
}

pub(in crate::model_check) struct PendingApplicationReplaySeed;
pub(in crate::model_check) struct SnapshotBootstrapSeed;

pub(in crate::model_check) fn apply_to_state(_state: &mut ExplorationState, _op: Operation) {}
pub(in crate::model_check) fn apply_pending_application_replay_seed() {}
pub(in crate::model_check) fn apply_scheduled_operation() {}
pub(in crate::model_check) fn apply_snapshot_bootstrap_seeds() {}
pub(in crate::model_check) fn apply_soak_action() {}
pub(in crate::model_check) fn apply_to_restart_snapshot_state() {}
pub(in crate::model_check) fn restart_node() {}
pub(in crate::model_check) fn restart_node_losing_application_state() {}
pub(in crate::model_check) fn try_apply_soak_action() {}
