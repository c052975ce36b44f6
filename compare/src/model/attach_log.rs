//! Whether an uploader's log is what deltas ask for (02, request m): each part of the log is sorted and compared with what its delta names.
use super::delta::Delta;
use super::sheet::Taker;
use crate::raw::{self, Reply};
use crate::reply::{refused, taken};

/// The bytes of an entry: one bit, 64, and seven that are 0.
pub const ENTRY: usize = 9;

#[derive(Clone, Copy, Debug, PartialEq, Eq, PartialOrd, Ord)]
pub enum Entry {
    Detach(u64),
    Attach(u64),
}

impl Entry {
    pub fn packed(self) -> [u8; ENTRY] {
        let (bit, id) = match self {
            Self::Detach(id) => (0, id),
            Self::Attach(id) => (1, id),
        };
        let mut bytes = [0; ENTRY];
        for (place, one) in [bit].into_iter().chain((0..64).rev().map(|place| id >> place & 1)).enumerate() {
            bytes[place / 8] |= (one as u8) << (7 - place % 8);
        }
        bytes
    }

    /// Nothing where a filling bit is set.
    fn read(bytes: &[u8]) -> Option<Self> {
        let bits: Vec<bool> = bytes.iter().flat_map(|byte| (0..8).rev().map(move |place| byte >> place & 1 == 1)).collect();
        let id = bits[1..65].iter().fold(0, |id, bit| id << 1 | u64::from(*bit));
        let entry = if bits[0] { Self::Attach(id) } else { Self::Detach(id) };
        bits[65..].iter().all(|bit| !bit).then_some(entry)
    }
}

/// Deltas one behind another; nothing where one is malformed.
fn deltas_in(bytes: &[u8]) -> Option<Vec<Delta>> {
    let (mut taker, mut deltas) = (Taker(bytes), Vec::new());
    while !taker.0.is_empty() {
        deltas.push(Delta::at_front(&mut taker)?);
    }
    Some(deltas)
}

fn entries_in(log: &[u8]) -> Option<Vec<Entry>> {
    if log.len() % ENTRY == 0 { log.chunks(ENTRY).map(Entry::read).collect() } else { None }
}

/// What a delta asks for, in the order of the ids: the detaches, then the attaches.
pub fn asked(delta: &Delta) -> [Vec<Entry>; 2] {
    let detaches = delta.lost.iter().map(|id| Entry::Detach(*id)).collect();
    [detaches, delta.gained.iter().map(|segment| Entry::Attach(segment.id)).collect()]
}

/// The entries, each part of them in any order, and nothing more.
fn passes(deltas: &[Delta], mut entries: &[Entry]) -> bool {
    for part in deltas.iter().flat_map(asked) {
        let Some((front, rest)) = entries.split_at_checked(part.len()) else {
            return false;
        };
        let mut sorted = front.to_vec();
        sorted.sort_unstable();
        if sorted != part {
            return false;
        }
        entries = rest;
    }
    entries.is_empty()
}

/// 20, 37, else whether the log passes.
pub fn check_log(deltas: &[u8], log: &[u8]) -> Reply {
    let Some(deltas) = deltas_in(deltas) else {
        return refused(20, &[]);
    };
    let Some(entries) = entries_in(log) else {
        return refused(37, &[]);
    };
    taken(if passes(&deltas, &entries) { raw::YES } else { raw::NO }, &[])
}
