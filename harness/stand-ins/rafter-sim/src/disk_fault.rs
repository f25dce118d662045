//! Stand-in: an empty shell, no record reaches it.
