//! The judge of the library. A committed index whose commit term is recorded
//! as zero is earlier than nothing (T-03), and in the Rust earlier than every
//! nonzero term. So the Rust is asked as long as no check has met such an
//! index, and from that check on the plain model is, which has taken every
//! record before. An absent term is relevant to neither.

use crate::model::Model;
use crate::oracle::Oracle;
use crate::record::{read, Record};
use crate::state::State;
use crate::subject::{Answer, Lists, Subject};

#[derive(Default)]
pub struct Judge {
    rust: Oracle,
    model: Model,
    by_model: bool,
    /// Records judged by the model.
    pub by_the_model: u64,
}

impl Subject for Judge {
    fn fresh(&mut self) {
        self.rust.fresh();
        self.model.fresh();
        self.by_model = false;
    }

    fn submit(&mut self, record: &[u8]) -> Answer {
        let check = read(record) == Ok(Record::Check);
        self.by_model |= check && self.model.has_committed_zero();
        let answer = self.model.submit(record);
        if self.by_model {
            self.by_the_model += 1;
            return answer;
        }
        self.rust.submit(record)
    }

    fn lists(&self) -> Lists {
        if self.by_model {
            return self.model.lists();
        }
        self.rust.lists()
    }

    fn state(&self) -> State {
        if self.by_model {
            return self.model.state();
        }
        self.rust.state()
    }

    fn set_marks(&mut self, marks: &[u32]) {
        self.rust.set_marks(marks);
        self.model.set_marks(marks);
    }

    /// It has no bytes.
    fn bytes(&self, out: &mut Vec<u8>) {
        out.clear();
    }
}
