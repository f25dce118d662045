//! Stand-in: nothing is applied.

use std::collections::BTreeSet;

use super::TransitionInstrumentationError;

#[derive(Clone, Debug, Default, Hash)]
pub(super) struct ApplicationHistory {
    pub(super) errors: BTreeSet<String>,
    pub(super) violations: BTreeSet<TransitionInstrumentationError>,
}
