//! Stand-in: an empty shell, records have no time.

#[derive(Clone, Copy, Debug, Default, Eq, Hash, Ord, PartialEq, PartialOrd)]
pub struct SimTick(pub u64);

#[derive(Clone, Copy, Debug, Default, Eq, Hash, PartialEq)]
pub struct SimSeed(pub u64);

#[derive(Clone, Copy, Debug, Default, Hash)]
pub struct SimClock(SimTick);

impl SimClock {
    pub fn now(&self) -> SimTick {
        self.0
    }
}

#[derive(Clone, Copy, Debug, Default, Hash)]
pub(crate) struct SimRng;
