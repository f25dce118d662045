//! Stand-in: names that invariants.rs hands on; rows never reach them.

pub(in crate::model_check) struct AppliedFloorRecovery;

pub(in crate::model_check) fn check_applied_floor_recovery() {}
pub(in crate::model_check) fn check_exact_durable_restart() {}
