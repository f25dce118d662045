//! Stand-in: an empty shell, nothing restarts.

pub(in crate::model_check) struct ExpectedSnapshot;
pub(in crate::model_check) struct RestartSnapshotState;
