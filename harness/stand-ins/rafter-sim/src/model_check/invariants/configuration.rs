//! Stand-in: rows carry no proposals.

use super::{Action, ExplorationState, Failure};

pub(super) fn check_serialized_configuration_proposals(
    _state: &ExplorationState,
    _trace: &[Action],
) -> Result<(), Failure> {
    Ok(())
}
