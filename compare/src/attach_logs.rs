//! Uploaders' logs held to deltas: against the model.
use crate::lists::{bare, lent, random_delta};
use crate::model::attach_log::{
    ENTRY,
    Entry::{self, Attach, Detach},
    asked, check_log,
};
use crate::model::delta::Delta;
use crate::ours;
use crate::raw::{self, Reply};
use crate::reply::{refused, show, taken};
use crate::rng::Rng;
use crate::tally::{Call, Tally, hex};

fn check(tally: &mut Tally, deltas: &[u8], log: &[u8], expected: &Reply) {
    let (mut deltas_lent, mut log_lent) = (deltas.to_vec(), log.to_vec());
    let given = ours::check_log(&mut deltas_lent, &mut log_lent);
    tally.count(Call::CheckLog, &given, false);
    let wrong = if given != *expected {
        format!("ours {}, expected {}", show(&given), show(expected))
    } else if deltas_lent != deltas || log_lent != log {
        "a slice lent for reading was changed".into()
    } else {
        return;
    };
    tally.differ(Call::CheckLog, &wrong, || format!("deltas {}, log {}", hex(deltas), hex(log)));
}

fn check_by_model(tally: &mut Tally, deltas: &[u8], log: &[u8]) {
    check(tally, deltas, log, &check_log(deltas, log));
}

fn packed(deltas: &[Delta]) -> Vec<u8> {
    deltas.iter().flat_map(|delta| delta.packed().expect("few ids")).collect()
}

fn packed_log(entries: &[Entry]) -> Vec<u8> {
    entries.iter().flat_map(|entry| entry.packed()).collect()
}

/// The log in the order of the ids.
fn in_order(deltas: &[Delta]) -> Vec<Entry> {
    deltas.iter().flat_map(asked).flatten().collect()
}

pub struct AttachLogs {
    rng: Rng,
}

impl AttachLogs {
    pub fn new(seed: u64) -> Self {
        Self { rng: Rng::new(seed, "attach logs") }
    }

    /// Few deltas; some have the ids of the one before, some none.
    fn deltas(&mut self) -> Vec<Delta> {
        let mut deltas: Vec<Delta> = Vec::new();
        for _ in 0..self.rng.below(5) {
            let delta = match deltas.last() {
                Some(last) if self.rng.one_in(4) => last.clone(),
                _ if self.rng.one_in(6) => Delta { epoch: self.rng.word(), lost: Vec::new(), gained: Vec::new() },
                _ => random_delta(&mut self.rng),
            };
            deltas.push(delta);
        }
        deltas
    }

    /// What the deltas ask for, each part in its order or in any.
    fn entries(&mut self, deltas: &[Delta]) -> Vec<Entry> {
        let mut parts: Vec<Vec<Entry>> = deltas.iter().flat_map(asked).collect();
        for part in &mut parts {
            if self.rng.one_in(2) {
                self.rng.shuffle(part);
            }
        }
        parts.concat()
    }

    /// One entry left out, there twice, exchanged with another, moved, altered, or of the other kind.
    fn spoil_entries(&mut self, entries: &mut Vec<Entry>) {
        if entries.is_empty() {
            return entries.push(Attach(self.rng.word()));
        }
        let (at, to) = (self.rng.below(entries.len()), self.rng.below(entries.len()));
        match self.rng.below(6) {
            0 => drop(entries.remove(at)),
            1 => entries.insert(at, entries[to]),
            2 => entries.swap(at, to),
            3 => {
                let entry = entries.remove(at);
                entries.insert(to, entry);
            }
            4 => entries[at] = entries[to],
            _ => {
                entries[at] = match entries[at] {
                    Detach(id) => Attach(id),
                    Attach(id) => Detach(id),
                }
            }
        }
    }

    /// A bit anywhere, a filling bit, or another length.
    fn spoil_log(&mut self, log: &mut Vec<u8>) {
        if log.is_empty() {
            return log.push(0);
        }
        let at = self.rng.below(log.len());
        match self.rng.below(4) {
            0 => log[at] ^= 1 << self.rng.below(8),
            1 => log[at / ENTRY * ENTRY + ENTRY - 1] |= 1 << self.rng.below(7),
            2 => log.truncate(at),
            _ => log.push(self.rng.byte()),
        }
    }

    pub fn step(&mut self, tally: &mut Tally) {
        for _ in 0..40 {
            let deltas = self.deltas();
            let mut entries = self.entries(&deltas);
            if self.rng.one_in(2) {
                self.spoil_entries(&mut entries);
            }
            let mut log = packed_log(&entries);
            if self.rng.one_in(6) {
                self.spoil_log(&mut log);
            }
            let bytes = packed(&deltas);
            let bytes = if bytes.is_empty() { bytes } else { lent(bytes, &mut self.rng) };
            check_by_model(tally, &bytes, &log);
        }
    }
}

fn delta(lost: &[u64], gained: &[u64]) -> Delta {
    Delta { epoch: 3, lost: lost.to_vec(), gained: bare(gained.iter().copied()) }
}

/// Every order of four entries; each entry left out, there twice and too many; each length and each filling bit; deltas cut short.
pub fn directed(tally: &mut Tally) {
    let (yes, no) = (taken(raw::YES, &[]), taken(raw::NO, &[]));
    let deltas = [delta(&[5, u64::MAX], &[5]), delta(&[], &[]), delta(&[], &[6])];
    let bytes = packed(&deltas);
    let orders: [(&[Entry], &Reply); 7] = [
        (&[Detach(5), Detach(u64::MAX), Attach(5), Attach(6)], &yes),
        (&[Detach(u64::MAX), Detach(5), Attach(5), Attach(6)], &yes),
        (&[Detach(5), Attach(5), Detach(u64::MAX), Attach(6)], &no),
        (&[Detach(5), Detach(u64::MAX), Attach(6), Attach(5)], &no),
        (&[Detach(5), Detach(u64::MAX), Attach(5)], &no),
        (&[Detach(5), Detach(5), Attach(5), Attach(6)], &no),
        (&[Detach(5), Detach(u64::MAX), Attach(5), Attach(6), Attach(6)], &no),
    ];
    for (entries, expected) in orders {
        check(tally, &bytes, &packed_log(entries), expected);
    }
    check(tally, &[], &[], &yes);
    check(tally, &[], &Attach(0).packed(), &no);
    check(tally, &packed(&deltas[1..2]), &[], &yes);
    let log = packed_log(&in_order(&deltas));
    for length in 0..log.len() {
        let expected = if length % ENTRY == 0 { &no } else { &refused(37, &[]) };
        check(tally, &bytes, &log[..length], expected);
    }
    for bit in 0..7 {
        let mut set = log.clone();
        set[2 * ENTRY - 1] |= 1 << bit;
        check(tally, &bytes, &set, &refused(37, &[]));
    }
    for length in 1..bytes.len() {
        check_by_model(tally, &bytes[..length], &log);
        check_by_model(tally, &bytes[..length], &log[1..]);
    }
    check(tally, &bytes[..bytes.len() - 1], &log[1..], &refused(20, &[]));
    check(tally, &[&bytes[..], &[0]].concat(), &log, &refused(20, &[]));
    long_deltas(tally);
}

/// As many ids as a delta can have: in order, two exchanged, one in place of another; some hundred against their order.
fn long_deltas(tally: &mut Tally) {
    let ids: Vec<u64> = (0..65_535).map(|id| id << 40).collect();
    let deltas = [delta(&ids, &ids)];
    let (bytes, mut entries) = (packed(&deltas), in_order(&deltas));
    check(tally, &bytes, &packed_log(&entries), &taken(raw::YES, &[]));
    entries.swap(0, 65_534);
    check(tally, &bytes, &packed_log(&entries), &taken(raw::YES, &[]));
    entries[65_535] = entries[65_536];
    check(tally, &bytes, &packed_log(&entries), &taken(raw::NO, &[]));
    let deltas = [delta(&ids[..700], &ids[..800])];
    let backward: Vec<Entry> = deltas.iter().flat_map(asked).flat_map(|part| part.into_iter().rev()).collect();
    check(tally, &packed(&deltas), &packed_log(&backward), &taken(raw::YES, &[]));
}
