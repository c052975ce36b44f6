//! Names against the model and, those of parents that 02 h forbids excepted, against the Rust; ranges and kinds against the Rust.
use crate::model::delta::{Written, within};
use crate::model::names as model;
use crate::oracle::{left_out, left_out_name, name_refusal, range_refusal};
use crate::ours;
use crate::output::Output;
use crate::raw::{self, Reply};
use crate::reply::{refused, show, taken};
use crate::rng::Rng;
use crate::scalable_consumer::{ScalableConsumerType, SegmentSource, SegmentTopicError, canonical_segment_topic};
use crate::spoil::reported;
use crate::tally::{Call, LONG_NAMES, NAMES, Tally, hex};
use crate::types::{KeyRange, SegmentId};

const EDGES: &[u32] = &[0, 1, 2, 9, 0x0a0b, 0x7fff, 0x8000, 65_534, 65_535, 65_536, 65_537, 1 << 31, u32::MAX];
const IDS: &[u64] = &[0, 1, 9, 10, 99, 18_446_744_073_709_551_609, u64::MAX];
const GOOD_NAMES: &[&str] = &[
    "segment://a/b/c/0000-7fff-0",
    "segment://t/n//m/1234-abcd-18446744073709551615",
    "segment://t-0/n_1/m/0000-0000-10",
    "segment://é/日/\u{10ffff}/00ff-ff00-7",
];
const NEAR_NAMES: &[&str] = &[
    "segment://a/b/c/7fff-0000-0",
    "segment://a/b/c/0000-7fff-18446744073709551616",
    "segment://a/b/c/0000-7fff-00",
    "segment://a/b/c/0000-7fff-01",
    "segment://a/b/c/0000-7fff-",
    "segment://a/b/c/0000-7FFF-0",
    "segment://a/b/c/0000-7fff-0-0",
    "segment://a/b/c",
    "segment://a/b/c/",
    "segment://x",
    "segment://",
    "segment:/",
    "",
    "segment://t/n//0000-ffff-1",
    "segment://a/b/c?/0000-ffff-1",
    "segment://t?/n/m/0000-ffff-1",
    "segment://t/n#/m/0000-ffff-1",
    "segment://a?/b#/c/ffff-0000-10",
    "segment://t?/n/m/x",
    "segment://t?/n/0000-ffff-1",
    "segment://a/b/c/0000-7fff-0?",
    "segment://a/b/c/#000-7fff-0",
    "topic://a/b/c/0000-7fff-0",
    "segment://a/b/c/0000-7fff-99999999999999999999",
    "segment://a/b/c/0000-7fff-+1",
];
const GOOD_PARENTS: &[&str] = &["topic://a/b/c", "topic://t/n//m", "topic://t-0/n_1/m", "topic://é/日/\u{10ffff}"];
const NEAR_PARENTS: &[&str] = &["topic://t?/n/m", "topic://t/#/m", "topic://a?/b#/c", "topic://t?/n", "topic://t?/n/m/", "topic://t/n/m#"];

/// Of so many random paths one is long.
const LONG_PATH: usize = 8;

/// A path of a parent that is so many bytes long, 5 at least: its parts anywhere.
pub fn long_path(length: usize, rng: &mut Rng) -> String {
    let mut path = vec![b'x'; length];
    let namespace = rng.between(1, length - 4);
    path[namespace] = b'/';
    path[rng.between(namespace + 2, length - 2)] = b'/';
    String::from_utf8(path).expect("a text")
}

pub struct Names {
    rng: Rng,
    output: Output,
}

/// A call on a name: what ours gave, what the model says, the name behind it and before, whether the Rust is left out.
struct Asked<'a> {
    given: Reply,
    expected: Written,
    lent: (&'a [u8], &'a [u8]),
    out: bool,
}

/// The Rust's. The parent's text and the range are tested before it is asked: 7, 9.
fn built(parent: &[u8], range: (u32, u32), id: u64, room: usize) -> Written {
    let none = |reply: Reply| (reply, Vec::new());
    let Ok(parent) = std::str::from_utf8(parent) else { return none(refused(7, &[])) };
    match KeyRange::new(range.0, range.1) {
        Err(error) => none(range_refusal(None, &error)),
        Ok(range) => match canonical_segment_topic(parent, range, SegmentId(id)) {
            Err(error) => none(name_refusal(&error)),
            Ok(name) => within(name.into_bytes(), room),
        },
    }
}

fn source(id: u64, topic: &[u8]) -> Result<SegmentSource, Reply> {
    let topic = std::str::from_utf8(topic).map_err(|_| refused(7, &[]))?;
    SegmentSource::new(SegmentId(id), topic.into()).map_err(|error| name_refusal(&error))
}

/// The parent: the Rust's source, asked for with the id in the name.
fn parent(topic: &[u8], room: usize) -> Written {
    let Ok(text) = std::str::from_utf8(topic) else { return (refused(7, &[]), Vec::new()) };
    let found = match SegmentSource::new(SegmentId(0), text.into()) {
        Err(SegmentTopicError::SegmentIdMismatch { topic_id, .. }) => SegmentSource::new(topic_id, text.into()),
        other => other,
    };
    match found {
        Err(error) => (name_refusal(&error), Vec::new()),
        Ok(source) => within(source.parent_topic().into_bytes(), room),
    }
}

impl Names {
    pub fn new(seed: u64) -> Self {
        let mut rng = Rng::new(seed, "names");
        let output = Output::new(4096, &mut rng);
        Self { rng, output }
    }

    /// Holds ours to the model and to the Rust, unless that is left out.
    fn judge(&mut self, tally: &mut Tally, call: Call, asked: Asked, theirs: impl FnOnce() -> Written, input: impl FnOnce() -> String) {
        let Asked { given, expected, lent, out } = asked;
        tally.left_out[NAMES] += u64::from(out);
        tally.count(call, &given, !out && !matches!(expected.0.number, 7 | 21));
        let theirs = if out { None } else { Some(theirs()) };
        let by_rust = theirs.and_then(|theirs| self.output.differs_from_the_rust(&given, &theirs));
        let by_model = self.output.differs(&given, &expected, &[lent]);
        self.output.settle(tally, call, [by_model, by_rust], input);
    }

    fn check_built(&mut self, tally: &mut Tally, parent: &[u8], range: (u32, u32), id: u64, room: usize) {
        let mut lent = parent.to_vec();
        let given = ours::segment_topic(&mut lent, range, id, self.output.lent(room));
        let out = std::str::from_utf8(parent).is_ok_and(left_out);
        let asked = Asked { given, expected: model::built(parent, range, id, room), lent: (&lent, parent), out };
        let input = || format!("parent {}, range {range:?}, id {id}, output of {room}", hex(parent));
        self.judge(tally, Call::SegmentTopic, asked, || built(parent, range, id, room), input);
    }

    fn check_source(&mut self, tally: &mut Tally, id: u64, topic: &[u8]) {
        let mut lent = topic.to_vec();
        let given = ours::segment_source(id, &mut lent);
        let out = std::str::from_utf8(topic).is_ok_and(left_out_name);
        tally.limits[LONG_NAMES] += u64::from(given.answer == raw::FOUND && topic.len() > 42);
        let asked = Asked { given, expected: (model::source(id, topic), Vec::new()), lent: (&lent, topic), out };
        let found = |source: SegmentSource| taken(raw::FOUND, &[source.key_range().start().into(), source.key_range().end().into()]);
        let theirs = || (source(id, topic).map_or_else(|reply| reply, found), Vec::new());
        self.judge(tally, Call::SegmentSource, asked, theirs, || format!("id {id}, name {}", hex(topic)));
    }

    fn check_parent(&mut self, tally: &mut Tally, topic: &[u8], room: usize) {
        let mut lent = topic.to_vec();
        let given = ours::parent_topic(&mut lent, self.output.lent(room));
        let out = std::str::from_utf8(topic).is_ok_and(left_out_name);
        let asked = Asked { given, expected: model::parent(topic, room), lent: (&lent, topic), out };
        self.judge(tally, Call::ParentTopic, asked, || parent(topic, room), || format!("name {}, output of {room}", hex(topic)));
    }

    /// A name in every call, with the id that it has and another, with room that is enough, exact and short.
    fn name(&mut self, tally: &mut Tally, topic: &[u8]) {
        let id = self.rng.pick(IDS);
        self.check_source(tally, id, topic);
        if let Reply { number: 19, second, .. } = model::source(id, topic) {
            self.check_source(tally, second, topic);
        }
        let needed = model::parent(topic, usize::MAX).1.len();
        for room in [self.output.length(), needed, needed.saturating_sub(1)] {
            self.check_parent(tally, topic, room.min(self.output.length()));
        }
    }

    fn parent(&mut self, tally: &mut Tally, parent: &[u8]) {
        let (start, end, id) = (self.rng.pick(EDGES), self.rng.pick(EDGES), self.rng.pick(IDS));
        self.check_built(tally, parent, (start, end), id, self.output.length());
        let range = (start.min(65_535).min(end), 65_535.min(start.max(end)));
        let needed = model::built(parent, range, id, usize::MAX).1.len();
        for room in [needed, needed.saturating_sub(1), needed + 1] {
            self.check_built(tally, parent, range, id, room.min(self.output.length()));
        }
    }

    /// Every string of up to `most` of these bytes behind a prefix and before a suffix.
    fn strings(prefix: &str, alphabet: &[u8], most: usize, suffix: &str, mut each: impl FnMut(&[u8])) {
        for length in 0..=most {
            for mut code in 0..alphabet.len().pow(length as u32) {
                let mut name = prefix.as_bytes().to_vec();
                for _ in 0..length {
                    name.push(alphabet[code % alphabet.len()]);
                    code /= alphabet.len();
                }
                name.extend(suffix.bytes());
                each(&name);
            }
        }
    }

    /// All edits of one byte of the good names, and all short names over small alphabets.
    pub fn directed(&mut self, tally: &mut Tally) {
        self.kinds(tally);
        for name in GOOD_NAMES.iter().chain(NEAR_NAMES).chain(GOOD_PARENTS).chain(NEAR_PARENTS) {
            self.name(tally, name.as_bytes());
            self.parent(tally, name.as_bytes());
        }
        for name in GOOD_NAMES {
            edits(name.as_bytes(), |edited| self.name(tally, edited));
        }
        for parent in GOOD_PARENTS {
            edits(parent.as_bytes(), |edited| self.parent(tally, edited));
        }
        Self::strings("topic://", b"a/?#", 6, "", |parent| self.parent(tally, parent));
        Self::strings("segment://", b"a/?#", 5, "/0000-ffff-1", |name| self.name(tally, name));
        Self::strings("segment://a/b/c/00", b"0f-/", 4, "-0001-1", |name| self.name(tally, name));
        Self::strings("segment://a/b/c/0000-ffff", b"019-", 5, "", |name| self.name(tally, name));
        let texts = b"\x00\x7f\x80\x8f\x90\x9f\xa0\xbf\xc1\xc2\xdf\xe0\xe1\xec\xed\xee\xef\xf0\xf1\xf3\xf4\xf5\xff";
        Self::strings("", texts, 4, "", |text| self.check_source(tally, 0, text));
        self.ranges(tally);
    }

    pub fn step(&mut self, tally: &mut Tally) {
        for _ in 0..60 {
            let name = self.random_name();
            self.name(tally, &name);
            let parent = self.random_parent();
            self.parent(tally, &parent);
            let [a, b, c, d] = [0; 4].map(|_: u32| self.random_value());
            check_ranges(tally, (a, b), (c, d));
            check_kind(tally, self.rng.word() as i32 >> self.rng.below(32));
        }
    }

    fn random_value(&mut self) -> u32 {
        match self.rng.below(3) {
            0 => self.rng.pick(EDGES),
            1 => self.rng.below(65_540) as u32,
            _ => self.rng.below(12) as u32,
        }
    }

    /// One in eight is long: 43 bytes or a few more, or around 256 or 2,048.
    fn random_path(&mut self) -> Vec<u8> {
        if self.rng.one_in(LONG_PATH) {
            let length = self.rng.pick(&[43, 250, 2040]) + self.rng.below(16);
            return long_path(length, &mut self.rng).into_bytes();
        }
        let pieces = ["a", "b", "/", "/", "//", "?", "#", "é", "-", "0", "topic"];
        (0..self.rng.between(1, 9)).flat_map(|_| self.rng.pick(&pieces).bytes()).collect()
    }

    fn random_parent(&mut self) -> Vec<u8> {
        let mut parent = b"topic://".to_vec();
        parent.extend(self.random_path());
        self.sometimes_edited(parent)
    }

    fn random_name(&mut self) -> Vec<u8> {
        let mut name = b"segment://".to_vec();
        name.extend(if self.rng.one_in(2) { b"a/b/c".to_vec() } else { self.random_path() });
        let (start, end) = (self.rng.below(65_536), self.rng.below(65_536));
        let id = self.rng.word() >> self.rng.below(64);
        name.extend(format!("/{start:04x}-{end:04x}-{id}").bytes());
        self.sometimes_edited(name)
    }

    fn sometimes_edited(&mut self, mut name: Vec<u8>) -> Vec<u8> {
        if self.rng.one_in(3) {
            let at = self.rng.below(name.len());
            match self.rng.below(3) {
                0 => name[at] = self.rng.byte(),
                1 => drop(name.remove(at)),
                _ => name.insert(at, self.rng.pick(b"0a/-?#f\xc3")),
            }
        }
        name
    }

    fn ranges(&mut self, tally: &mut Tally) {
        for start in EDGES {
            for end in EDGES {
                for other in EDGES {
                    for last in EDGES {
                        check_ranges(tally, (*start, *end), (*other, *last));
                    }
                }
            }
        }
    }

    /// Kinds of consumers, and the first of the ranges.
    fn kinds(&mut self, tally: &mut Tally) {
        check_ranges(tally, (0, 9), (10, 65_535));
        for kind in (-300..300).chain([i32::MIN, i32::MAX, 1 << 16, (1 << 16) + 1]) {
            check_kind(tally, kind);
        }
    }
}

/// Every byte replaced by each other byte, left out, and with a telling byte before it.
fn edits(name: &[u8], mut each: impl FnMut(&[u8])) {
    for at in 0..name.len() {
        for byte in 0..=255 {
            let mut edited = name.to_vec();
            edited[at] = byte;
            each(&edited);
        }
        let mut edited = name.to_vec();
        edited.remove(at);
        each(&edited);
        each(&name[..at]);
        for byte in b"0a/-?#f\x80" {
            let mut edited = name.to_vec();
            edited.insert(at, *byte);
            each(&edited);
        }
    }
}

fn check(tally: &mut Tally, call: Call, given: &Reply, expected: &Reply, input: impl FnOnce() -> String) {
    tally.count(call, given, true);
    let wrong = (given != expected).then(|| format!("ours {}, the Rust {}", show(given), show(expected)));
    if let Some(what) = reported([None, wrong]) {
        tally.differ(call, &what, input);
    }
}

fn told(yes: bool) -> Reply {
    taken(if yes { raw::YES } else { raw::NO }, &[])
}

/// The four calls on ranges; of two bad ranges the first is reported.
fn check_ranges(tally: &mut Tally, range: (u32, u32), other: (u32, u32)) {
    let of = |range: (u32, u32)| KeyRange::new(range.0, range.1).map_err(|error| range_refusal(None, &error));
    let input = || format!("{range:?}, {other:?}");
    let length = of(range).map_or_else(|reply| reply, |range| taken(raw::FOUND, &[range.len().into()]));
    check(tally, Call::RangeLen, &ours::range_len(range), &length, input);
    let contains = of(range).map_or_else(|reply| reply, |range| told(range.contains(other.0)));
    check(tally, Call::RangeContains, &ours::range_contains(range, other.0), &contains, input);
    let both = of(range).and_then(|range| of(other).map(|other| (range, other)));
    let inside = both.map_or_else(|reply| reply, |(range, other)| told(range.contains_range(other)));
    check(tally, Call::RangeContainsRange, &ours::range_contains_range(range, other), &inside, input);
    let adjacent = both.map_or_else(|reply| reply, |(range, other)| told(range.is_adjacent_to(other)));
    check(tally, Call::RangeAdjacent, &ours::range_is_adjacent_to(range, other), &adjacent, input);
}

fn check_kind(tally: &mut Tally, value: i32) {
    let (given, expected) = (ours::consumer_type(value), ScalableConsumerType::from_pb_i32(value).to_pb_i32());
    tally.count(Call::ConsumerType, &taken(raw::FOUND, &[]), true);
    let wrong = (given != expected).then(|| format!("ours {given}, the Rust {expected}"));
    if let Some(what) = reported([None, wrong]) {
        tally.differ(Call::ConsumerType, &what, || value.to_string());
    }
}
