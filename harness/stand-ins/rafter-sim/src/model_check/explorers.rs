//! Stand-in: an empty shell.

pub(super) struct ElectionSafetyExplorer;
