//! Stand-in: an empty client history is linearizable.

use super::catalog;
use super::state::ClientHistory;

pub(super) const CLIENT_HISTORY_LINEARIZABILITY_INVARIANT: &str =
    catalog::RD_06_CLIENT_HISTORY_LINEARIZABILITY;

pub(super) fn check_client_history_linearizable(_history: &ClientHistory) -> Result<(), String> {
    Ok(())
}
