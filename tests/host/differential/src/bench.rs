//! The larger buffers of a run, used again and again. A case has the others itself.

use crate::case::Difference;
use crate::lent::{guards_stand, Guarded};

pub struct Bench {
    /// An image, or another text of bytes that is only read.
    pub image: Guarded<u8>,
    pub out: Guarded<u8>,
    pub session: Guarded<u64>,
    pub record: Guarded<u8>,
    pub judge_out: Vec<u8>,
    pub judge_session: Vec<u64>,
}

impl Bench {
    pub fn new() -> Bench {
        Bench {
            image: Guarded::new(&[]),
            out: Guarded::new(&[]),
            session: Guarded::new(&[]),
            record: Guarded::new(&[]),
            judge_out: Vec::new(),
            judge_session: Vec::new(),
        }
    }

    /// An output of this length for each side, of the same bytes.
    pub fn lend_out(&mut self, length: usize) {
        self.judge_out.clear();
        self.judge_out.resize(length, 0x5a);
        self.out.fill(&self.judge_out);
    }

    /// Lends the library the judge's session.
    pub fn lend_session(&mut self) {
        self.session.fill(&self.judge_session);
    }

    pub fn guards(&self) -> Difference {
        guards_stand(&[&self.image, &self.out, &self.session, &self.record])
    }
}
