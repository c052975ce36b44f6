//! Calls that write to a lent output: the bytes written, and that those behind them stay.
use crate::model::delta::Written;
use crate::raw::Reply;
use crate::reply::show;
use crate::rng::Rng;
use crate::spoil::reported;
use crate::tally::{Call, Tally, first_difference};

pub struct Output {
    out: Vec<u8>,
    mirror: Vec<u8>,
}

impl Output {
    pub fn new(length: usize, rng: &mut Rng) -> Self {
        let out = rng.bytes(length);
        Self { mirror: out.clone(), out }
    }

    pub fn length(&self) -> usize {
        self.out.len()
    }

    /// The first `room` bytes, to be lent.
    pub fn lent(&mut self, room: usize) -> &mut [u8] {
        &mut self.out[..room]
    }

    /// How an answer and the output differ from what the model says they should be. `lent` has each slice that the call only reads, and what it
    /// was.
    pub fn differs(&mut self, given: &Reply, expected: &Written, lent: &[(&[u8], &[u8])]) -> Option<String> {
        let (reply, written) = expected;
        self.mirror[..written.len()].copy_from_slice(written);
        if given != reply {
            Some(format!("ours {}, expected {}", show(given), show(reply)))
        } else if self.out != self.mirror {
            Some(format!("output byte {}", first_difference(&self.out, &self.mirror)))
        } else {
            lent.iter().any(|(now, before)| now != before).then(|| "a slice lent for reading was changed".into())
        }
    }

    /// How an answer and the front of the output differ from what the Rust gave.
    pub fn differs_from_the_rust(&self, given: &Reply, theirs: &Written) -> Option<String> {
        let (reply, written) = theirs;
        if given != reply {
            return Some(format!("ours {}, the Rust {}", show(given), show(reply)));
        }
        (!self.out.starts_with(written)).then(|| format!("output byte {} is not the Rust's", first_difference(&self.out, written)))
    }

    /// Reports what the model and the Rust find wrong, and takes the prediction over.
    pub fn settle(&mut self, tally: &mut Tally, call: Call, found: [Option<String>; 2], input: impl FnOnce() -> String) {
        if found.iter().any(Option::is_some) {
            self.out.copy_from_slice(&self.mirror);
        }
        if let Some(what) = reported(found) {
            tally.differ(call, &what, input);
        }
    }

    /// Compares with the model alone.
    pub fn check(
        &mut self,
        tally: &mut Tally,
        call: Call,
        given: &Reply,
        expected: &Written,
        lent: &[(&[u8], &[u8])],
        input: impl FnOnce() -> String,
    ) {
        let wrong = self.differs(given, expected, lent);
        self.settle(tally, call, [wrong, None], input);
    }
}
