//! Stand-in: the hash that records.rs leaves to this file. No record reads.

use std::hash::{Hash, Hasher};

use super::ReadTerminalOutput;

impl Hash for ReadTerminalOutput {
    fn hash<H: Hasher>(&self, _state: &mut H) {}
}
