//! Stand-in: labels are messages, and messages are left behind.

use super::Observation;

pub(super) const ALL: [Observation; 0] = [];

impl Observation {
    pub(super) fn label(self) -> &'static str {
        ""
    }
}
