//! Stand-in: an empty shell.

#[derive(Clone, Debug, Default, Hash)]
pub(super) struct PurposeWitnessHistory;
