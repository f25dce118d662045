//! Stand-in: names that helpers.rs hands on and nobody here calls.

pub(in crate::model_check) fn bootstrap_state() {}
pub(in crate::model_check) fn bootstrap_with_snapshot() {}
pub(in crate::model_check) fn large_snapshot_payload() {}
pub(in crate::model_check) fn test_snapshot() {}
pub(in crate::model_check) fn test_snapshot_with_committed_membership() {}
