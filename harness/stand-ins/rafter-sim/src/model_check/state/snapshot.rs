//! Stand-in: an empty shell, there are no snapshots.

#[derive(Clone, Debug, Default, Hash)]
pub(super) struct SnapshotHistory;

pub(in crate::model_check) fn snapshot_payload_binding_issue() {}
