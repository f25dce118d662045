//! Stand-in: names that invariants.rs hands on; rows never reach them.

use super::{Action, Cluster, ExplorationState, Failure};

pub(in crate::model_check) fn check_election_history(
    _state: &ExplorationState,
    _trace: &[Action],
) -> Result<(), Failure> {
    Ok(())
}

pub(in crate::model_check) fn check_election_safety(
    _cluster: &Cluster,
    _trace: &[Action],
) -> Result<(), Failure> {
    Ok(())
}
