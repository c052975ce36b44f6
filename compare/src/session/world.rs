//! A small world of assignments: few ids, ranges and epochs, so that lists are often equal, alike, stale or repeated.
use crate::generate::{Assignment, Part};
use crate::lists::sheet_of_size;
use crate::rng::Rng;

/// Topics of sessions: valid parents first, then some that are not.
pub const TOPICS: &[&str] = &[
    "topic://a/b/c",
    "topic://t/n//m",
    "topic://tenant/namespace/rest/with/slashes",
    "topic://t-0/n_1/m",
    "topic://é/\u{10ffff}/日本",
    "topic://t//m",
    "topic://a/b",
    "topic://a/b/c/",
    "topic://a/b/c?",
    "topic://a?/b/c",
    "topic://a/#/c",
    "topic://a?/b#/c",
    "persistent://a/b/c",
    "",
];

const IDS: &[u64] = &[0, 1, 2, 3, 9, 10, 255, 256, 4_294_967_296, u64::MAX - 1, u64::MAX];
const VALUES: &[u32] = &[0, 1, 5, 9, 255, 256, 0x7fff, 0x8000, 0xfffe, 0xffff];

/// What the sessions of one stage speak of.
pub struct World {
    pub topic: String,
    /// The list of the last message, from which the next is often made.
    last: Assignment,
}

impl World {
    pub fn new(topic: &str) -> Self {
        Self { topic: topic.into(), last: Assignment { epoch: 0, parts: Vec::new() } }
    }

    pub fn path(&self) -> &str {
        self.topic.strip_prefix("topic://").unwrap_or(&self.topic)
    }

    fn range(rng: &mut Rng) -> (u32, u32) {
        let (a, b) = (rng.pick(VALUES), rng.pick(VALUES));
        (a.min(b), a.max(b))
    }

    /// Buckets inside the range that share no value, in any order.
    fn buckets(start: u32, end: u32, rng: &mut Rng) -> Vec<(i32, i32)> {
        let count = match rng.below(24) {
            0..12 => 0,
            12..23 => rng.between(1, 3),
            _ => rng.between(4, 40),
        };
        let mut cuts: Vec<i32> = (0..2 * count).map(|_| rng.between(start as usize, end as usize) as i32).collect();
        cuts.sort_unstable();
        cuts.dedup();
        let mut buckets: Vec<(i32, i32)> = cuts.chunks_exact(2).map(|pair| (pair[0], pair[1])).collect();
        rng.shuffle(&mut buckets);
        buckets
    }

    fn part(&self, id: u64, rng: &mut Rng) -> Part {
        let (start, end) = Self::range(rng);
        Part::new(self.path(), id, start, end, Self::buckets(start, end, rng))
    }

    /// Another list at this epoch: a new one, or the last with a change or without.
    pub fn list(&mut self, epoch: u64, rng: &mut Rng) -> Assignment {
        let mut parts = self.last.parts.clone();
        match rng.below(10) {
            0 | 1 => {}
            2 | 3 if !parts.is_empty() => drop(parts.remove(rng.below(parts.len()))),
            4 if !parts.is_empty() => rng.shuffle(&mut parts),
            5 if !parts.is_empty() => {
                let at = rng.below(parts.len());
                parts[at] = self.part(parts[at].id, rng);
            }
            6 if !parts.is_empty() => {
                let at = rng.below(parts.len());
                rng.shuffle(&mut parts[at].buckets);
            }
            7 | 8 => {
                let id = if rng.one_in(4) { rng.word() } else { rng.pick(IDS) };
                if parts.iter().all(|part| part.id != id) {
                    parts.push(self.part(id, rng));
                }
            }
            _ => parts = self.new_parts(rng),
        }
        self.last = Assignment { epoch, parts };
        self.last.clone()
    }

    fn new_parts(&self, rng: &mut Rng) -> Vec<Part> {
        let mut ids: Vec<u64> = if rng.one_in(20) { (0..rng.between(20, 150) as u64).collect() } else { IDS.to_vec() };
        rng.shuffle(&mut ids);
        let count = if ids.len() == IDS.len() { rng.below(5) } else { ids.len() };
        let bare = count > 20 && !rng.one_in(3);
        let part = |id: u64, rng: &mut Rng| {
            let part = self.part(id, rng);
            if bare { Part { buckets: Vec::new(), ..part } } else { part }
        };
        ids.truncate(count);
        ids.iter().map(|id| part(*id, rng)).collect()
    }

    /// A list of so many bytes, packed; one time in four the next is made from it.
    pub fn list_of_size(&mut self, epoch: u64, size: usize, rng: &mut Rng) -> Assignment {
        let mut list = Assignment::of_sheet(&sheet_of_size(epoch, size, rng), self.path());
        rng.shuffle(&mut list.parts);
        if rng.one_in(4) {
            self.last = list.clone();
        }
        list
    }

    /// The list with one fault: of a range, a bucket, buckets, a bucket beyond its range, a name or an id.
    pub fn faulty(&mut self, epoch: u64, rng: &mut Rng) -> Assignment {
        let kept = self.last.clone();
        let mut list = self.list(epoch, rng);
        if list.parts.is_empty() {
            list.parts.push(self.part(7, rng));
        }
        self.last = kept;
        self.put_fault(&mut list, rng);
        list
    }

    /// Puts a fault into a list that has a segment.
    pub fn put_fault(&self, list: &mut Assignment, rng: &mut Rng) {
        let at = rng.below(list.parts.len());
        match rng.below(6) {
            0 => self.bad_range(&mut list.parts[at], rng),
            1 => bad_bucket(&mut list.parts[at], rng),
            2 => sharing_buckets(&mut list.parts[at], rng),
            3 => bad_name(&mut list.parts[at], rng),
            4 => outer_bucket(&mut list.parts[at], rng),
            _ => {
                let again = if rng.one_in(2) { list.parts[at].clone() } else { self.part(list.parts[at].id, rng) };
                list.parts.push(again);
                rng.shuffle(&mut list.parts);
            }
        }
    }

    fn bad_range(&self, part: &mut Part, rng: &mut Rng) {
        let outside = rng.pick(&[65_536, 65_537, 1 << 31, u32::MAX]);
        let inside = rng.pick(VALUES);
        (part.start, part.end) = match rng.below(4) {
            0 => (outside, inside),
            1 => (inside, outside),
            2 => (outside, outside - 1),
            _ => (inside.max(1), inside.max(1) - 1),
        };
        *part = Part::new(self.path(), part.id, part.start, part.end, part.buckets.clone());
    }
}

fn bad_bucket(part: &mut Part, rng: &mut Rng) {
    let outside = rng.pick(&[65_536, i32::MAX, -1, i32::MIN, -65_536]);
    let bucket = match rng.below(3) {
        0 => (outside, 5),
        1 => (5, outside),
        _ => (9, 3),
    };
    let at = rng.below(part.buckets.len() + 1);
    part.buckets.insert(at, bucket);
}

fn sharing_buckets(part: &mut Part, rng: &mut Rng) {
    let first = part.buckets.first().copied().unwrap_or((10, 20));
    let value = rng.pick(&[first.0, first.1]);
    if part.buckets.is_empty() {
        part.buckets.push(first);
    }
    let at = rng.below(part.buckets.len() + 1);
    part.buckets.insert(at, (value, value));
}

/// A bucket beyond an end of the range, or over it. Of the whole key space there is none, nor of a range that is bad already.
fn outer_bucket(part: &mut Part, rng: &mut Rng) {
    let (start, end) = (i64::from(part.start), i64::from(part.end));
    let mut outer =
        vec![(start - 1, start - 1), (start - 1, start), (0, start - 1), (end + 1, end + 1), (end, end + 1), (end + 1, 65_535), (0, 65_535)];
    outer.retain(|(low, high)| 0 <= *low && low <= high && *high <= 65_535 && (*low < start || end < *high));
    if !outer.is_empty() {
        let at = rng.below(part.buckets.len() + 1);
        let (low, high) = rng.pick(&outer);
        part.buckets.insert(at, (low as i32, high as i32));
    }
}

/// A name that is cut to nothing is bad already: a second fault leaves it.
fn bad_name(part: &mut Part, rng: &mut Rng) {
    if part.topic.is_empty() {
        return;
    }
    let at = rng.below(part.topic.len());
    match rng.below(4) {
        0 => part.topic.truncate(at),
        1 => part.topic[at] = (part.topic[at] ^ 1) & 0x7f,
        2 => part.topic.push(b'0'),
        _ => part.topic.insert(at, b'/'),
    }
    if std::str::from_utf8(&part.topic).is_err() && !rng.one_in(4) {
        part.topic = b"segment://x".to_vec();
    }
}
