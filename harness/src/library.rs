//! The library `history` behind the same trait as the model.
//!
//! It is linked where `harness/library` has left
//! target/staticlib/libhistory.a (`harness/build` then sets `--cfg history`);
//! without it the model stands in its place.

use crate::subject::Subject;

/// What is compared with the oracle.
#[cfg(history)]
pub fn subject() -> (&'static str, Box<dyn Subject>) {
    ("the library", Box::new(linked::Library::new()))
}

#[cfg(not(history))]
pub fn subject() -> (&'static str, Box<dyn Subject>) {
    ("the model", Box::<crate::model::Model>::default())
}

/// The library's writer, where it is linked.
#[cfg(history)]
pub fn writer() -> Option<fn(&[u64], &mut [u8]) -> (u32, usize)> {
    Some(linked::write)
}

#[cfg(not(history))]
pub fn writer() -> Option<fn(&[u64], &mut [u8]) -> (u32, usize)> {
    None
}

/// Turns a record into an edition: the refusal, and how many bytes.
pub type Convert = fn(u8, &[u8], &mut [u8]) -> (u32, usize);

/// The library's converter, where it is linked.
#[cfg(history)]
pub fn converter() -> Option<Convert> {
    Some(linked::convert)
}

#[cfg(not(history))]
pub fn converter() -> Option<Convert> {
    None
}

#[cfg(history)]
pub mod linked {
    use crate::decode::{decode, put_marks};
    use crate::state::State;
    use crate::subject::{Answer, Finding, Lists, Subject};

    // include/gamiwhoru.h in Rust: where it is wrong, what is compared differs.

    #[repr(C)]
    struct Reply {
        refusal: u8,
        value: usize,
        node: u8,
    }

    #[repr(C)]
    struct WriteReply {
        refusal: u8,
        length: usize,
    }

    #[repr(C)]
    struct FindingReply {
        state: u8,
        name: usize,
        node: u8,
        index: usize,
        term: u32,
    }

    #[repr(C)]
    struct LeaderReply {
        state: u8,
        term: u32,
        leader: u8,
    }

    #[repr(C)]
    struct UnseenReply {
        state: u8,
        node: u8,
        index: usize,
    }

    #[repr(C)]
    struct UnknownReply {
        state: u8,
        index: usize,
    }

    #[repr(C)]
    struct CommittedReply {
        state: u8,
        length: usize,
        owner: u8,
    }

    extern "C" {
        fn gamiwhoru_length() -> usize;
        fn gamiwhoru_fresh(history: *mut u8, length: usize) -> u8;
        fn gamiwhoru_submit(
            history: *mut u8,
            length: usize,
            record: *const u8,
            record_length: usize,
        ) -> Reply;
        fn gamiwhoru_write(
            fields: *const u64,
            count: usize,
            buffer: *mut u8,
            length: usize,
        ) -> WriteReply;
        fn gamiwhoru_convert(
            edition: u8,
            record: *const u8,
            record_length: usize,
            buffer: *mut u8,
            length: usize,
        ) -> WriteReply;
        fn gamiwhoru_finding(history: *const u8, length: usize, n: usize) -> FindingReply;
        fn gamiwhoru_leader(history: *const u8, length: usize, n: usize) -> LeaderReply;
        fn gamiwhoru_unseen(history: *const u8, length: usize, n: usize) -> UnseenReply;
        fn gamiwhoru_unknown(history: *const u8, length: usize, n: usize) -> UnknownReply;
        fn gamiwhoru_committed(history: *const u8, length: usize) -> CommittedReply;
    }

    /// The refusal, and how many bytes of the buffer were written.
    pub fn write(numbers: &[u64], buffer: &mut [u8]) -> (u32, usize) {
        let (fields, count) = (numbers.as_ptr(), numbers.len());
        // SAFETY: the pointers and lengths are those of two live buffers, of which one is only read.
        let reply = unsafe { gamiwhoru_write(fields, count, buffer.as_mut_ptr(), buffer.len()) };
        (u32::from(reply.refusal), reply.length)
    }

    /// The refusal, and how many bytes of the buffer were written.
    pub fn convert(edition: u8, record: &[u8], buffer: &mut [u8]) -> (u32, usize) {
        let (bytes, count) = (record.as_ptr(), record.len());
        // SAFETY: the pointers and lengths are those of two live buffers, of which one is only read.
        let reply = unsafe {
            gamiwhoru_convert(edition, bytes, count, buffer.as_mut_ptr(), buffer.len())
        };
        (u32::from(reply.refusal), reply.length)
    }

    /// A reader's states.
    const HERE: u8 = 0;
    const NO_MORE: u8 = 1;

    pub struct Library {
        history: Vec<u8>,
    }

    /// The elements of a list, until there are no more.
    fn rows<T>(row: impl Fn(usize) -> (u8, T)) -> Vec<T> {
        let mut out = Vec::new();
        loop {
            match row(out.len()) {
                (HERE, element) => out.push(element),
                (NO_MORE, _) => return out,
                (state, _) => panic!("a history grown from a fresh one is answered {state}"),
            }
        }
    }

    impl Library {
        pub fn new() -> Self {
            // SAFETY: takes nothing.
            let length = unsafe { gamiwhoru_length() };
            // Not zeros, so that `fresh` is seen to clear them.
            let mut library = Self {
                history: vec![255; length],
            };
            library.fresh();
            library
        }
    }

    impl Default for Library {
        fn default() -> Self {
            Self::new()
        }
    }

    impl Subject for Library {
        fn fresh(&mut self) {
            // SAFETY: the pointer and the length are those of one live buffer, lent to this call alone.
            let refusal = unsafe { gamiwhoru_fresh(self.history.as_mut_ptr(), self.history.len()) };
            assert_eq!(refusal, 0, "a buffer of the library's own length");
        }

        fn submit(&mut self, record: &[u8]) -> Answer {
            let (history, length) = (self.history.as_mut_ptr(), self.history.len());
            // SAFETY: as above; the record is another live buffer, which is only read.
            let reply = unsafe { gamiwhoru_submit(history, length, record.as_ptr(), record.len()) };
            Answer {
                refusal: u32::from(reply.refusal),
                value: reply.value as u32,
                node: u32::from(reply.node),
            }
        }

        fn lists(&self) -> Lists {
            let (history, length) = (self.history.as_ptr(), self.history.len());
            // SAFETY, of all five: the pointer and the length are those of one live buffer, which is only read.
            Lists {
                findings: rows(|n| {
                    let r = unsafe { gamiwhoru_finding(history, length, n) };
                    let finding = Finding {
                        name: r.name as u32,
                        node: u32::from(r.node),
                        index: r.index as u32,
                        term: r.term,
                    };
                    (r.state, finding)
                }),
                leaders: rows(|n| {
                    let r = unsafe { gamiwhoru_leader(history, length, n) };
                    (r.state, (r.term, u32::from(r.leader)))
                }),
                unseen: rows(|n| {
                    let r = unsafe { gamiwhoru_unseen(history, length, n) };
                    (r.state, (u32::from(r.node), r.index as u32))
                }),
                unknown: rows(|n| {
                    let r = unsafe { gamiwhoru_unknown(history, length, n) };
                    (r.state, r.index as u32)
                }),
                committed: {
                    let r = unsafe { gamiwhoru_committed(history, length) };
                    assert_eq!(r.state, HERE, "a history grown from a fresh one");
                    (r.length as u32, r.owner as u32)
                },
            }
        }

        fn state(&self) -> State {
            decode(&self.history)
        }

        fn set_marks(&mut self, marks: &[u32]) {
            put_marks(&mut self.history, marks);
        }

        fn bytes(&self, out: &mut Vec<u8>) {
            out.clear();
            out.extend_from_slice(&self.history);
        }
    }
}
