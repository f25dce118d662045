//! Stand-in: names that invariants.rs hands on; rows never reach them.

use super::{Action, ExplorationState, Failure};

pub(in crate::model_check) fn check_commit_history(
    _state: &ExplorationState,
    _trace: &[Action],
) -> Result<(), Failure> {
    Ok(())
}

pub(in crate::model_check) fn check_log_history(
    _state: &ExplorationState,
    _trace: &[Action],
) -> Result<(), Failure> {
    Ok(())
}
