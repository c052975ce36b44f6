//! The segment of a lent list that takes a key, and test keys: against the model, and against published hashes.
use crate::lists::{any_sheet, spoiled_sheet};
use crate::model::lookup::{KEY_MOST, murmur3, segment_for_key};
use crate::model::sheet::{Segment, Sheet};
use crate::model::test_key::{key_for_hash, key_in_segment};
use crate::ours;
use crate::raw::{self, Reply};
use crate::reply::{refused, show, taken};
use crate::rng::Rng;
use crate::tally::{Call, Tally, hex};

/// Published values of MurmurHash3 x86_32 with seed 0: three of Wikipedia's table, the others of Ian Boyd's list.
const PUBLISHED: &[(&[u8], u32)] = &[
    (b"", 0),
    (b"test", 0xba6b_d213),
    (b"Hello, world!", 0xc036_3e43),
    (b"The quick brown fox jumps over the lazy dog", 0x2e4f_f723),
    (b"abc", 0xb3dd_93fa),
    (b"\x21", 0x7266_1cf4),
    (b"\x21\x43", 0xa0f7_b07a),
    (b"\x21\x43\x65", 0x7e4a_8634),
    (b"\x21\x43\x65\x87", 0xf55b_516b),
    (b"\xff\xff\xff\xff", 0x7629_3b50),
    (b"\0", 0x514e_28b7),
    (b"\0\0\0\0", 0x2362_f9de),
];

fn check(tally: &mut Tally, key: &[u8], sheet: &[u8], expected: &Reply) {
    let (mut key_lent, mut sheet_lent) = (key.to_vec(), sheet.to_vec());
    let given = ours::segment_for_key(&mut key_lent, &mut sheet_lent);
    tally.count(Call::SegmentForKey, &given, false);
    let wrong = if given != *expected {
        format!("ours {}, expected {}", show(&given), show(expected))
    } else if key_lent != key || sheet_lent != sheet {
        "a slice lent for reading was changed".into()
    } else {
        return;
    };
    tally.differ(Call::SegmentForKey, &wrong, || format!("key {}, sheet {}", hex(key), hex(sheet)));
}

/// The key of a hash: the model's, which hashed again gives the hash.
fn check_hash(tally: &mut Tally, hash: u32) {
    let given = ours::key_for_hash(hash);
    tally.count(Call::KeyForHash, &given, false);
    let key = key_for_hash(hash);
    let wrong = if murmur3(&key) != hash {
        "the model's key has another hash".into()
    } else if given != taken(raw::FOUND, &key.map(u64::from)) {
        format!("ours {}, expected {key:02x?}", show(&given))
    } else {
        return;
    };
    tally.differ(Call::KeyForHash, &wrong, || format!("hash {hash:08x}"));
}

/// The key of a segment; and that the key is found again: in the segment, or in one with a lower id, which then takes
/// the same hash.
fn check_key(tally: &mut Tally, sheet: &[u8], id: u64) {
    let mut lent = sheet.to_vec();
    let given = ours::key_in_segment(&mut lent, id);
    tally.count(Call::KeyInSegment, &given, false);
    let expected = key_in_segment(sheet, id);
    let wrong = if given != expected {
        format!("ours {}, expected {}", show(&given), show(&expected))
    } else if lent != sheet {
        "a slice lent for reading was changed".into()
    } else if let Some(wrong) = found_elsewhere(tally, sheet, id, &given) {
        wrong
    } else {
        return;
    };
    tally.differ(Call::KeyInSegment, &wrong, || format!("sheet {}, segment {id}", hex(sheet)));
}

/// What is wrong where a key that was given for a segment is not found there, nor in one with a lower id.
fn found_elsewhere(tally: &mut Tally, sheet: &[u8], id: u64, given: &Reply) -> Option<String> {
    if given.answer != raw::FOUND {
        return None;
    }
    let key = [given.first, given.second, given.third, given.fourth].map(|value| value as u8);
    let found = segment_for_key(&key, sheet);
    check(tally, &key, sheet, &found);
    let again = found.answer == raw::FOUND && found.first <= id && murmur3(&key) <= 0xffff;
    (!again).then(|| format!("the key {key:02x?} is found as {}", show(&found)))
}

/// The hash, a value beside it, an end, or any.
fn near(hash: u16, rng: &mut Rng) -> u16 {
    let (beside, any) = (hash.wrapping_add(rng.below(7) as u16).wrapping_sub(3), rng.word() as u16);
    rng.pick(&[hash, beside, beside, 0, u16::MAX, any])
}

/// Ranges and buckets of some segments around the hash.
fn around(sheet: &mut Sheet, hash: u16, rng: &mut Rng) {
    for segment in &mut sheet.segments {
        if rng.one_in(4) {
            continue;
        }
        let (a, b) = (near(hash, rng), near(hash, rng));
        let mut cuts: Vec<u16> = (0..2 * rng.below(4)).map(|_| near(hash, rng)).collect();
        cuts.sort_unstable();
        cuts.dedup();
        let mut buckets: Vec<(u16, u16)> = cuts.chunks_exact(2).map(|pair| (pair[0], pair[1])).collect();
        rng.shuffle(&mut buckets);
        *segment = Segment { id: segment.id, start: a.min(b), end: a.max(b), buckets };
    }
}

pub struct Keys {
    rng: Rng,
}

impl Keys {
    pub fn new(seed: u64) -> Self {
        Self { rng: Rng::new(seed, "keys") }
    }

    /// Short keys; now and then one around the longest.
    fn key(&mut self) -> Vec<u8> {
        let length = if self.rng.one_in(100) { KEY_MOST - 2 + self.rng.below(5) } else { self.rng.below(24) };
        self.rng.bytes(length)
    }

    pub fn step(&mut self, tally: &mut Tally) {
        for _ in 0..40 {
            let key = self.key();
            let mut sheet = any_sheet(&mut self.rng);
            around(&mut sheet, murmur3(&key) as u16, &mut self.rng);
            let packed = sheet.packed();
            let lent = if self.rng.one_in(5) { spoiled_sheet(packed, &mut self.rng) } else { packed };
            check(tally, &key, &lent, &segment_for_key(&key, &lent));
            check_hash(tally, self.rng.word() as u32);
            let ids: Vec<u64> = sheet.segments.iter().map(|segment| segment.id).chain([self.rng.word()]).collect();
            check_key(tally, &lent, self.rng.pick(&ids));
        }
    }
}

/// A list of one segment with that range.
fn one_segment(start: u16, end: u16) -> Vec<u8> {
    Sheet { epoch: 1, segments: vec![Segment { id: 7, start, end, buckets: Vec::new() }] }.packed()
}

/// The keys of published hashes and of those at the ends; segments without buckets, with buckets inside and outside
/// their range, and none.
fn test_keys(tally: &mut Tally) {
    let four = PUBLISHED.iter().filter(|(key, _)| key.len() == 4);
    for (key, hash) in four {
        let given = ours::key_for_hash(*hash);
        let bytes: Vec<u64> = key.iter().map(|byte| u64::from(*byte)).collect();
        if given != taken(raw::FOUND, &bytes) {
            tally.differ(Call::KeyForHash, "not the published key", || format!("hash {hash:08x}, ours {}", show(&given)));
        }
    }
    for bit in 0..32 {
        check_hash(tally, 1 << bit);
        check_hash(tally, !(1 << bit));
    }
    let several = vec![(21, 30), (0, 5), (15, 16), (12, 12)];
    for buckets in [vec![], vec![(0, 9)], vec![(0, 10)], vec![(20, 30)], vec![(21, 30)], several] {
        let sheet = Sheet { epoch: 1, segments: vec![Segment { id: 7, start: 10, end: 20, buckets }] }.packed();
        for id in [6, 7, 8] {
            check_key(tally, &sheet, id);
        }
        check_key(tally, &sheet[1..], 7);
    }
}

/// The published hashes, each by the one range that has it and those beside; keys of the most bytes and one more; test
/// keys.
pub fn directed(tally: &mut Tally) {
    let (found, no) = (taken(raw::FOUND, &[7]), taken(raw::NO, &[]));
    for (key, hash) in PUBLISHED {
        let hash = *hash as u16;
        check(tally, key, &one_segment(hash, hash), &found);
        check(tally, key, &one_segment(hash.saturating_add(1), u16::MAX), &no);
        if hash > 0 {
            check(tally, key, &one_segment(0, hash - 1), &no);
        }
    }
    let whole = one_segment(0, u16::MAX);
    for (length, expected) in [(KEY_MOST, found), (KEY_MOST + 1, refused(32, &[]))] {
        check(tally, &vec![0xaa; length], &whole, &expected);
    }
    check(tally, &[0xaa; KEY_MOST], &whole[1..], &refused(20, &[]));
    check(tally, &[0xaa; KEY_MOST + 1], &whole[1..], &refused(32, &[]));
    test_keys(tally);
}
