//! The delta: what changed between two lists, apply and join.
use super::sheet::{SHEET_MOST, Segment, Sheet, Taker, put_record};
use crate::raw::{self, Reply};
use crate::reply::{refused, taken};
use std::collections::{BTreeMap, BTreeSet};

#[derive(Clone, Debug, PartialEq, Eq)]
pub struct Delta {
    pub epoch: u64,
    pub lost: Vec<u64>,
    pub gained: Vec<Segment>,
}

/// What a call with an output answers, and what it writes there.
pub type Written = (Reply, Vec<u8>);

fn by_id(segments: &[Segment]) -> BTreeMap<u64, &Segment> {
    segments.iter().map(|segment| (segment.id, segment)).collect()
}

impl Delta {
    pub fn between(old: &Sheet, new: &Sheet) -> Self {
        let (before, after) = (by_id(&old.segments), by_id(&new.segments));
        let lost = before.iter().filter(|(id, segment)| after.get(id) != Some(segment)).map(|(id, _)| *id);
        let gained = after.iter().filter(|(id, segment)| before.get(id) != Some(segment)).map(|(_, segment)| (*segment).clone());
        Self { epoch: new.epoch, lost: lost.collect(), gained: gained.collect() }
    }

    /// Its packed form; none where a count is above 65,535.
    pub fn packed(&self) -> Option<Vec<u8>> {
        let (lost, gained) = (u16::try_from(self.lost.len()).ok()?, u16::try_from(self.gained.len()).ok()?);
        let mut packed = self.epoch.to_be_bytes().to_vec();
        packed.extend(lost.to_be_bytes());
        packed.extend(gained.to_be_bytes());
        self.lost.iter().for_each(|id| packed.extend(id.to_be_bytes()));
        self.gained.iter().for_each(|segment| put_record(&mut packed, segment));
        Some(packed)
    }

    /// The delta at the front, whatever follows it.
    pub fn at_front(taker: &mut Taker<'_>) -> Option<Self> {
        let (epoch, lost_count, gained_count) = (taker.word()?, taker.short()?, taker.short()?);
        let lost = (0..lost_count).map(|_| taker.word()).collect::<Option<Vec<_>>>()?;
        let gained = taker.records(gained_count)?;
        lost.windows(2).all(|pair| pair[0] < pair[1]).then_some(Self { epoch, lost, gained })
    }

    /// A delta lent alone.
    pub fn whole(bytes: &[u8]) -> Option<Self> {
        let mut taker = Taker(bytes);
        Self::at_front(&mut taker).filter(|_| taker.0.is_empty())
    }

    /// Strikes the lost ids, then writes the gained records over any with that id.
    pub fn applied(&self, to: &Sheet) -> Sheet {
        let lost: BTreeSet<u64> = self.lost.iter().copied().collect();
        let mut held: BTreeMap<u64, Segment> = BTreeMap::new();
        let kept = to.segments.iter().filter(|segment| !lost.contains(&segment.id));
        for segment in kept.chain(&self.gained) {
            held.insert(segment.id, segment.clone());
        }
        Sheet { epoch: self.epoch, segments: held.into_values().collect() }
    }

    /// This delta, then `next`.
    pub fn joined(&self, next: &Self) -> Self {
        let lost: BTreeSet<u64> = self.lost.iter().chain(&next.lost).copied().collect();
        let named: BTreeSet<u64> = next.lost.iter().copied().chain(next.gained.iter().map(|segment| segment.id)).collect();
        let kept = self.gained.iter().filter(|segment| !named.contains(&segment.id));
        let mut gained: Vec<Segment> = kept.chain(&next.gained).cloned().collect();
        gained.sort_by_key(|segment| segment.id);
        Self { epoch: next.epoch, lost: lost.into_iter().collect(), gained }
    }
}

/// What is written, or 21 where the output is shorter.
pub fn within(packed: Vec<u8>, room: usize) -> Written {
    if packed.len() > room { (refused(21, &[]), Vec::new()) } else { (taken(raw::WRITTEN, &[packed.len() as u64]), packed) }
}

/// Apply: 20, 15, 21.
pub fn apply(sheet: &[u8], delta: &[u8], room: usize) -> Written {
    let (Some(sheet), Some(delta)) = (Sheet::whole(sheet), Delta::whole(delta)) else {
        return (refused(20, &[]), Vec::new());
    };
    let made = delta.applied(&sheet);
    if made.size() > SHEET_MOST { (refused(15, &[]), Vec::new()) } else { within(made.packed(), room) }
}

/// Join: 20, 21.
pub fn join(first: &[u8], second: &[u8], room: usize) -> Written {
    let (Some(first), Some(second)) = (Delta::whole(first), Delta::whole(second)) else {
        return (refused(20, &[]), Vec::new());
    };
    match first.joined(&second).packed() {
        Some(packed) => within(packed, room),
        None => (refused(21, &[]), Vec::new()),
    }
}
