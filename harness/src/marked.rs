//! Histories that are not grown from fresh ones: some records, and then marks
//! that no record leaves so. From a fresh history no mark passes the committed
//! end, so only here is a certificate left as it is whose mark lies past it.

use crate::state::State;
use crate::subject::{Answer, Lists, Subject};

/// A subject whose fresh history is such a one.
pub struct Marked<'a> {
    subject: &'a mut dyn Subject,
    start: &'a [Vec<u8>],
    marks: &'a [u32],
}

impl<'a> Marked<'a> {
    pub fn new(subject: &'a mut dyn Subject, start: &'a [Vec<u8>], marks: &'a [u32]) -> Self {
        Self {
            subject,
            start,
            marks,
        }
    }
}

impl Subject for Marked<'_> {
    fn fresh(&mut self) {
        self.subject.fresh();
        for record in self.start {
            self.subject.submit(record);
        }
        self.subject.set_marks(self.marks);
    }

    fn grown_from_fresh(&self) -> bool {
        false
    }

    fn submit(&mut self, record: &[u8]) -> Answer {
        self.subject.submit(record)
    }

    fn lists(&self) -> Lists {
        self.subject.lists()
    }

    fn state(&self) -> State {
        self.subject.state()
    }

    fn set_marks(&mut self, marks: &[u32]) {
        self.subject.set_marks(marks);
    }

    fn bytes(&self, out: &mut Vec<u8>) {
        self.subject.bytes(out);
    }
}
