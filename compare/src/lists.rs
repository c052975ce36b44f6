//! Packed lists and deltas lent alone: the wire writer against the Rust's `to_pb`, apply and join against the model.
use crate::generate::Assignment;
use crate::model::delta::{self, Delta, Written, within};
use crate::model::names;
use crate::model::sheet::{Segment, Sheet};
use crate::names::long_path;
use crate::oracle;
use crate::ours;
use crate::output::Output;
use crate::pb;
use crate::reply::refused;
use crate::rng::Rng;
use crate::scalable_consumer::ConsumerAssignment;
use crate::tally::{self, Call, Tally, hex};
use prost::Message as _;

const IDS: &[u64] = &[0, 1, 2, 3, 4, 9, 300, u64::MAX - 1, u64::MAX];
const VALUES: &[u16] = &[0, 1, 5, 9, 255, 256, 0x7fff, 0x8000, 0xfffe, 0xffff];
const PARENTS: &[&[u8]] = &[
    b"topic://a/b/c",
    b"topic://t/n//m",
    b"topic://t//m",
    b"topic://a/b/c#",
    b"topic://a?/b/c",
    b"topic://a/#b/c",
    b"",
    b"topic://a/b/\xff",
    "topic://ä/ö/ü".as_bytes(),
];

/// A segment whose buckets lie inside its range, now and then anywhere.
pub fn random_segment(id: u64, rng: &mut Rng) -> Segment {
    let (a, b) = (rng.pick(VALUES), rng.pick(VALUES));
    let count = if rng.one_in(2) { 0 } else { rng.below(5) };
    let mut cuts: Vec<u16> = (0..2 * count).map(|_| if rng.one_in(2) { rng.pick(VALUES) } else { rng.word() as u16 }).collect();
    if !rng.one_in(4) {
        cuts.iter_mut().for_each(|cut| *cut = (*cut).clamp(a.min(b), a.max(b)));
    }
    cuts.sort_unstable();
    cuts.dedup();
    let mut buckets: Vec<(u16, u16)> = cuts.chunks_exact(2).map(|pair| (pair[0], pair[1])).collect();
    rng.shuffle(&mut buckets);
    Segment { id, start: a.min(b), end: a.max(b), buckets }
}

/// Distinct ids, rising.
fn random_ids(most: usize, rng: &mut Rng) -> Vec<u64> {
    let few = rng.below(most.min(6) + 1);
    let count = if most > 6 && rng.one_in(6) { rng.below(most + 1) } else { few };
    let mut ids: Vec<u64> = (0..count).map(|_| if count > 6 || rng.one_in(5) { rng.word() >> rng.below(64) } else { rng.pick(IDS) }).collect();
    ids.sort_unstable();
    ids.dedup();
    ids
}

/// A well-formed list of at most `most` bytes.
pub fn random_sheet(epoch: u64, most: usize, rng: &mut Rng) -> Sheet {
    let ids = random_ids(most / 14, rng);
    let mut sheet = Sheet { epoch, segments: ids.iter().map(|id| random_segment(*id, rng)).collect() };
    while sheet.size() > most {
        sheet.segments.pop();
    }
    sheet
}

/// Of so many random lists one has just 2,048 bytes, or 2 or 4 more.
pub const AT_LIMIT: usize = 40;

/// The longest packed list, two times in three, or the next longer ones.
pub fn size_at_limit(rng: &mut Rng) -> usize {
    rng.pick(&[2048, 2048, 2048, 2048, 2050, 2052])
}

/// A list of so many bytes, an even number, by any mix of segments and buckets. All of its ranges are the whole key space.
pub fn sheet_of_size(epoch: u64, size: usize, rng: &mut Rng) -> Sheet {
    let left = size - 10;
    let mixes: Vec<usize> = (1..=left / 14).filter(|count| (left - 14 * count) % 4 == 0).collect();
    let count = if rng.one_in(3) { rng.pick(&[mixes[0], mixes[1], mixes[mixes.len() - 1]]) } else { rng.pick(&mixes) };
    let first = rng.pick(&[0, 1, 1 << 40, u64::MAX - 200]);
    let mut segments = bare(first..first + count as u64);
    for _ in 0..(left - 14 * count) / 4 {
        let buckets = &mut segments[rng.below(count)].buckets;
        let start = 3 * buckets.len() as u16;
        buckets.push((start, start + rng.below(3) as u16));
    }
    Sheet { epoch, segments }
}

/// A list with one place spoiled, which may or may not make it malformed.
pub fn spoiled_sheet(mut packed: Vec<u8>, rng: &mut Rng) -> Vec<u8> {
    let at = rng.below(packed.len());
    match rng.below(6) {
        0 => packed[at] ^= 1 << rng.below(8),
        1 => packed[at] = rng.byte(),
        2 => packed.truncate(at),
        3 => packed.push(rng.byte()),
        4 => packed[9] = packed[9].wrapping_add(1),
        _ => {
            let end = (at + 14).min(packed.len());
            let again = packed[at..end].to_vec();
            packed.splice(at..at, again);
        }
    }
    packed
}

pub fn random_delta(rng: &mut Rng) -> Delta {
    let lost = random_ids(40, rng);
    let gained = random_ids(40, rng).iter().map(|id| random_segment(*id, rng)).collect();
    Delta { epoch: rng.word() >> rng.below(64), lost, gained }
}

/// The packed form, now and then spoiled.
pub fn lent(packed: Vec<u8>, rng: &mut Rng) -> Vec<u8> {
    if rng.one_in(5) { spoiled_sheet(packed, rng) } else { packed }
}

/// A random list, one in `AT_LIMIT` of about the largest size.
pub fn any_sheet(rng: &mut Rng) -> Sheet {
    let epoch = rng.word() >> rng.below(64);
    let most = rng.pick(&[60, 200, 2048]);
    if rng.one_in(AT_LIMIT) {
        let size = size_at_limit(rng);
        return sheet_of_size(epoch, size, rng);
    }
    random_sheet(epoch, most, rng)
}

/// A random list, packed, now and then spoiled.
pub fn lent_sheet(rng: &mut Rng) -> Vec<u8> {
    let packed = any_sheet(rng).packed();
    lent(packed, rng)
}

/// Rooms around the length that the result needs.
pub fn room(needed: usize, most: usize, rng: &mut Rng) -> usize {
    let rooms = [needed, needed, needed, needed.saturating_sub(1), needed + 1, 0, most];
    rng.pick(&rooms).min(most)
}

/// What the writer should give: 20, 34, 7, 12, 21; the message is the Rust's own.
fn written(sheet: &[u8], parent: &[u8], room: usize) -> Written {
    let Some(sheet) = Sheet::whole(sheet) else {
        return (refused(20, &[]), Vec::new());
    };
    if let Some(place) = sheet.outside() {
        return (refused(34, &place), Vec::new());
    }
    let message = if sheet.segments.is_empty() { Ok(encoded(&sheet, "")) } else { std::str::from_utf8(parent).map(|parent| named(&sheet, parent)) };
    match message {
        Err(_) => (refused(7, &[]), Vec::new()),
        Ok(None) => (refused(12, &[]), Vec::new()),
        Ok(Some(bytes)) => within(bytes, room),
    }
}

/// The message with names of this parent; none where it is no parent (12), by the model where the Rust is not compared.
fn named(sheet: &Sheet, parent: &str) -> Option<Vec<u8>> {
    if oracle::left_out(parent) && !names::is_parent(parent) { None } else { encoded(sheet, parent) }
}

/// `to_pb` of the list, encoded by prost; none where the Rust refuses the parent (12).
fn encoded(sheet: &Sheet, parent: &str) -> Option<Vec<u8>> {
    let said = Assignment::of_sheet(sheet, parent.strip_prefix("topic://").unwrap_or(parent));
    let segments = said.parts.iter().map(|part| pb::ScalableAssignedSegment {
        segment_id: part.id,
        hash_start: part.start,
        hash_end: part.end,
        segment_topic: String::from_utf8(part.topic.clone()).expect("a text"),
        bucket_ranges: part.buckets.iter().map(|(start, end)| pb::IntRange { start: *start, end: *end }).collect(),
    });
    let message = pb::ScalableConsumerAssignment { layout_epoch: said.epoch, segments: segments.collect() };
    match ConsumerAssignment::try_from_pb(&message, parent) {
        Ok(list) => Some(list.to_pb().encode_to_vec()),
        Err(error) => {
            assert_eq!(oracle::refusal(&error).number, 12, "the Rust refuses a well-formed list");
            None
        }
    }
}

fn check_to_pb(tally: &mut Tally, output: &mut Output, sheet: &[u8], parent: &[u8], room: usize) {
    let expected = written(sheet, parent, room);
    let (mut sheet_lent, mut parent_lent) = (sheet.to_vec(), parent.to_vec());
    let given = ours::to_pb(&mut sheet_lent, &mut parent_lent, output.lent(room));
    let out = std::str::from_utf8(parent).is_ok_and(oracle::left_out);
    tally.left_out[tally::LISTS] += u64::from(out);
    let by_rust = !out && matches!(expected.0.number, 0 | 12);
    tally.count(Call::ToPb, &given, by_rust);
    let lent = [(&sheet_lent[..], sheet), (&parent_lent[..], parent)];
    let wrong = output.differs(&given, &expected, &lent);
    let found = if by_rust { [None, wrong] } else { [wrong, None] };
    output.settle(tally, Call::ToPb, found, || format!("output of {room}, parent {}, sheet {}", hex(parent), hex(sheet)));
}

fn check_apply(tally: &mut Tally, output: &mut Output, sheet: &[u8], delta: &[u8], room: usize) {
    let expected = delta::apply(sheet, delta, room);
    let (mut sheet_lent, mut delta_lent) = (sheet.to_vec(), delta.to_vec());
    let given = ours::apply(&mut sheet_lent, &mut delta_lent, output.lent(room));
    tally.count(Call::Apply, &given, false);
    let lent = [(&sheet_lent[..], sheet), (&delta_lent[..], delta)];
    output.check(tally, Call::Apply, &given, &expected, &lent, || format!("output of {room}, sheet {}, delta {}", hex(sheet), hex(delta)));
}

fn check_join(tally: &mut Tally, output: &mut Output, first: &[u8], second: &[u8], room: usize) {
    let expected = delta::join(first, second, room);
    let (mut first_lent, mut second_lent) = (first.to_vec(), second.to_vec());
    let given = ours::join(&mut first_lent, &mut second_lent, output.lent(room));
    tally.count(Call::Join, &given, false);
    let lent = [(&first_lent[..], first), (&second_lent[..], second)];
    output.check(tally, Call::Join, &given, &expected, &lent, || format!("output of {room}, first {}, second {}", hex(first), hex(second)));
}

pub struct Lists {
    rng: Rng,
    output: Output,
}

impl Lists {
    pub fn new(seed: u64) -> Self {
        let mut rng = Rng::new(seed, "lists");
        let output = Output::new(1 << 14, &mut rng);
        Self { rng, output }
    }

    pub fn step(&mut self, tally: &mut Tally) {
        for _ in 0..40 {
            self.try_to_pb(tally);
            self.try_apply(tally);
            self.try_join(tally);
        }
    }

    fn delta(&mut self) -> Vec<u8> {
        let delta = random_delta(&mut self.rng);
        lent(delta.packed().expect("few ids"), &mut self.rng)
    }

    /// One in eight is long: 43 bytes or a few more, or as long as an identity's texts can be.
    fn parent(&mut self) -> Vec<u8> {
        if self.rng.one_in(8) {
            let length = self.rng.pick(&[43, 2033]) + self.rng.below(16);
            return format!("topic://{}", long_path(length - 8, &mut self.rng)).into_bytes();
        }
        self.rng.pick(PARENTS).to_vec()
    }

    fn try_to_pb(&mut self, tally: &mut Tally) {
        let sheet = lent_sheet(&mut self.rng);
        let parent = self.parent();
        let needed = written(&sheet, &parent, usize::MAX).1.len();
        let room = room(needed, self.output.length(), &mut self.rng);
        check_to_pb(tally, &mut self.output, &sheet, &parent, room);
    }

    fn try_apply(&mut self, tally: &mut Tally) {
        let (sheet, delta) = (lent_sheet(&mut self.rng), self.delta());
        let needed = delta::apply(&sheet, &delta, usize::MAX).1.len();
        let room = room(needed, self.output.length(), &mut self.rng);
        check_apply(tally, &mut self.output, &sheet, &delta, room);
    }

    fn try_join(&mut self, tally: &mut Tally) {
        let (first, second) = (self.delta(), self.delta());
        let needed = delta::join(&first, &second, usize::MAX).1.len();
        let room = room(needed, self.output.length(), &mut self.rng);
        check_join(tally, &mut self.output, &first, &second, room);
    }
}

pub fn bare(ids: impl Iterator<Item = u64>) -> Vec<Segment> {
    ids.map(|id| Segment { id, start: 0, end: 65_535, buckets: Vec::new() }).collect()
}

pub fn delta_of(lost: impl Iterator<Item = u64>, gained: Vec<Segment>) -> Vec<u8> {
    Delta { epoch: 9, lost: lost.collect(), gained }.packed().expect("counts below 65,536")
}

/// Counts at their ends and just above, lists at 2,048 bytes and just above, outputs that just fit and just do not.
pub fn directed(tally: &mut Tally, seed: u64) {
    let mut rng = Rng::new(seed, "large lists");
    let mut output = Output::new(3 << 20, &mut rng);
    parents(tally, &mut output);
    buckets_outside(tally, &mut output);
    let most = output.length();
    for count in 143..148u64 {
        let full = Sheet { epoch: 1, segments: bare(0..count) }.packed();
        for more in 0..4 {
            check_apply(tally, &mut output, &full, &delta_of(0..1, bare(500..500 + more)), most);
        }
        check_to_pb(tally, &mut output, &full, PARENTS[0], most);
    }
    many_buckets(tally, &mut output, &mut rng);
    large_counts(tally, &mut output);
}

fn large_counts(tally: &mut Tally, output: &mut Output) {
    let most = output.length();
    let wide = Segment { id: 5, start: 0, end: 9, buckets: (0..65_535).map(|value| (value, value)).collect() };
    let deltas = [
        delta_of(0..65_535, Vec::new()),
        delta_of(65_535..65_536, Vec::new()),
        delta_of(0..0, bare(0..65_535)),
        delta_of(0..0, bare(65_535..65_536)),
        delta_of(0..40_000, bare(20_000..60_000)),
        delta_of(5..6, vec![wide]),
        delta_of(0..0, Vec::new()),
    ];
    for first in &deltas {
        check_apply(tally, output, &Sheet { epoch: 1, segments: Vec::new() }.packed(), first, most);
        for second in &deltas {
            let needed = delta::join(first, second, usize::MAX).1.len();
            for room in [needed, needed.saturating_sub(1), most] {
                check_join(tally, output, first, second, room);
            }
        }
    }
}

fn parents(tally: &mut Tally, output: &mut Output) {
    for parent in PARENTS {
        for count in 0..3 {
            let sheet = Sheet { epoch: 1, segments: bare(0..count) }.packed();
            let needed = written(&sheet, parent, usize::MAX).1.len();
            for room in [needed, needed.saturating_sub(1), 0, output.length()] {
                check_to_pb(tally, output, &sheet, parent, room);
            }
            for room in [sheet.len(), sheet.len() - 1, 0] {
                check_apply(tally, output, &sheet, &delta_of(0..0, Vec::new()), room);
            }
        }
    }
}

/// A bucket at and just beyond each end of its segment's range, in the first segment, the second or both, for parents of every kind: 34 of the
/// first by id and stored order comes before 7 and 12.
fn buckets_outside(tally: &mut Tally, output: &mut Output) {
    let rows: [&[(u16, u16)]; 8] =
        [&[], &[(10, 20)], &[(10, 10), (20, 20)], &[(9, 9)], &[(12, 13), (20, 21)], &[(10, 11), (0, 9)], &[(21, 21), (0, 0)], &[(0, 65_535)]];
    for (first, second) in rows.iter().flat_map(|first| rows.map(|second| (first, second))) {
        let segment = |id, buckets: &[(u16, u16)]| Segment { id, start: 10, end: 20, buckets: buckets.to_vec() };
        let sheet = Sheet { epoch: 1, segments: vec![segment(3, first), segment(u64::MAX, second)] }.packed();
        for parent in PARENTS {
            for room in [output.length(), 0] {
                check_to_pb(tally, output, &sheet, parent, room);
            }
        }
        check_to_pb(tally, output, &sheet[..sheet.len() - 1], PARENTS[0], 0);
    }
}

/// A list of one segment with buckets to the list's end and beyond, rising and not; all of them inside its range, the last outside, all but one.
fn many_buckets(tally: &mut Tally, output: &mut Output, rng: &mut Rng) {
    let most = output.length();
    for (count, end) in [505, 506, 507, 2000].into_iter().flat_map(|count| [(count, 65_535), (count, 2 * count - 2), (count, 1)]) {
        let mut buckets: Vec<(u16, u16)> = (0..count).map(|value| (value * 2, value * 2 + 1)).collect();
        for turn in 0..3 {
            let segment = Segment { id: 1, start: 0, end, buckets: buckets.clone() };
            let sheet = Sheet { epoch: 1, segments: vec![segment.clone()] }.packed();
            check_to_pb(tally, output, &sheet, PARENTS[0], most);
            check_apply(tally, output, &sheet, &delta_of(2..3, Vec::new()), most);
            check_apply(tally, output, &Sheet { epoch: 1, segments: Vec::new() }.packed(), &delta_of(0..0, vec![segment.clone()]), most);
            check_join(tally, output, &delta_of(0..0, vec![segment]), &delta_of(0..0, Vec::new()), most);
            match turn {
                0 => rng.shuffle(&mut buckets),
                _ => buckets[0] = buckets[usize::from(count) - 1],
            }
        }
    }
}
