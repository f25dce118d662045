//! Stand-in: nothing is executed.

use super::ExecutionWitness;

#[derive(Clone, Debug, Default, Hash)]
pub(crate) struct ExecutionLedger(pub(crate) Vec<ExecutionWitness>);
