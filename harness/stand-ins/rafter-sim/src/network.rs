//! Stand-in: an empty shell, no record sends a message.

use rafter::{Message, NodeId};

use crate::SimTick;

#[derive(Clone, Debug, Eq, Hash, PartialEq)]
pub struct Envelope {
    pub from: NodeId,
    pub to: NodeId,
    pub message: Message,
}

#[derive(Clone, Debug, Hash)]
pub(crate) struct QueuedEnvelope {
    pub(crate) ready_at: SimTick,
    pub(crate) envelope: Envelope,
}
