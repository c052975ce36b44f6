//! The worked rows, the known traps of a session, and messages with a known first fault.
use super::script::{Script, TOPIC, bare, bucketed, list};
use super::stage::{Ask, ROOM};
use crate::generate::{Assignment, Field, Part, Style, message};
use crate::model::session::{LIST, QUEUE, SLOT, STORE_FULL, STORE_LEAST, entry};
use crate::model::sheet::{Segment, Sheet};
use crate::raw::{ACCEPTED, DELTA, REPLAY, UNCHANGED};
use crate::reply::{refused, taken};
use crate::tally::{Call, Tally};

const ROW_A: &[u8] = b"\x08\x07\x12\x29\x08\x03\x12\x25\x08\x00\x10\x00\x18\xff\xff\x01\x22\x1bsegment://a/b/c/0000-7fff-0";

pub fn run(tally: &mut Tally, seed: u64) {
    rows(tally, seed);
    row_h(tally, seed);
    first_faults(tally, seed);
    queue_traps(tally, seed);
    queue_room(tally, seed);
    link_traps(tally, seed);
    drain_traps(tally, seed);
    readers(tally, seed);
    order_in_a_segment(tally, seed);
    marked_parents(tally, seed);
    stored_outside(tally, seed);
    high_bits(tally, seed);
    broker_codes(tally, seed);
}

/// Rows A to G and J.
fn rows(tally: &mut Tally, seed: u64) {
    let mut s = Script::open(tally, seed, 4 * SLOT, TOPIC);
    s.response(&list(2, &[]));
    let c = s.push(ROW_A.to_vec(), ROOM);
    s.expect("row C", Call::Update, c, taken(DELTA, &[26]));
    let d = s.push(ROW_A.to_vec(), ROOM);
    s.expect("row D", Call::Update, d, taken(UNCHANGED, &[]));
    let e = s.update(&list(4, &[(0, 0, 0x7fff)]));
    s.expect("row E", Call::Update, e, taken(DELTA, &[12]));
    let f = s.update(&list(2, &[]));
    s.expect("row F", Call::Update, f, refused(27, &[2, 4]));
    let g = s.update(&bucketed(4, 3, vec![(0, 5), (5, 9)]));
    s.expect("row G", Call::Update, g, refused(11, &[3]));
    let g = s.update(&bucketed(4, 3, vec![(0, 5), (6, 9)]));
    s.expect("row G", Call::Update, g, taken(DELTA, &[12 + 8 + 22]));
    for (topic, number) in [("topic://t/n//m", 0), ("topic://t//m", 12)] {
        let mut s = Script::open(tally, seed, 4 * SLOT, topic);
        let path = topic.strip_prefix("topic://").expect("a parent");
        let j = s.response(&Assignment { epoch: 1, parts: vec![Part::new(path, 0, 0, 1, Vec::new())] });
        let expected = if number == 0 { taken(ACCEPTED, &[]) } else { refused(number, &[]) };
        s.expect("row J", Call::Response, j, expected);
    }
}

/// Row H, and the longest delta.
fn row_h(tally: &mut Tally, seed: u64) {
    let mut s = Script::open(tally, seed, 4 * SLOT, TOPIC);
    let buckets = |count: i32| (0..count).map(|value| (value * 2, value * 2)).collect();
    for (count, number) in [(144, 0), (145, 0), (146, 15), (147, 15)] {
        let given = s.response(&bare(1, 0, count));
        s.expect("row H, segments", Call::Response, given, if number == 0 { taken(ACCEPTED, &[]) } else { refused(number, &[]) });
    }
    let lost = 145 * 8;
    for (count, size, number) in [(507, 0, 15), (508, 0, 15), (505, 2034, 0), (506, 2038, 0)] {
        s.response(&bare(1, 1000, 145));
        let given = s.update(&bucketed(1, 3, buckets(count)));
        s.expect("row H, buckets", Call::Update, given, if number == 0 { taken(DELTA, &[12 + lost + size]) } else { refused(number, &[]) });
    }
}

/// Updates to consumer 7 and the refusal of each, written down; 0 where there is none.
#[rustfmt::skip]
const UPDATES: &[(&str, u8)] = &[
    ("", 6), ("12020801", 6), ("0807", 6), ("08071200", 6), ("0807120408011200", 6), ("0806080712020801", 0), ("0807120208010806", 24),
    ("08071202080112020802", 0), ("0807120408010802", 0), ("08071200120208011200", 0), ("0807120012021801", 6), ("080712001200", 6),
    ("080312020801080712020801120c120a0801100018092202206112 00", 13), ("0807120208011204120208 01", 6),
    ("080712020801120a12020801120410001800", 6), ("080712030801111202 0801", 4), ("080712040801 10 0112020801", 4), ("12001204 08010802 0a00", 4),
    ("0807120208013334", 3), ("08071202080133080534", 3), ("0005", 3), ("800005", 3), ("88808080100712020801", 3),
    ("080712040801320308090a", 3), ("08071202088001", 3), ("8880808080808080800007120208 01", 0), ("08070a00", 4), ("080708ff", 3),
    ("080712020801127f", 3), ("080712000a00", 4), ("080712050801", 3), ("08071206080112001201", 3), ("08071314", 3), ("120000", 3),
    ("08ffffffffffffffffff0112020801", 24), ("08ffffffffffffffffff0212020801", 3), ("08ffffffffffffffffffff0112020801", 3),
    ("0807120208019801 05", 0), ("080712020801310102030405060708", 0), ("0807120208013101020304050607", 3), ("08071202080135010203 04", 0),
    ("080712020801350102 03", 3), ("0807120208013203010203", 0), ("08071202080132040102 03", 3), ("080712020801f8ffffff0f00", 0),
    ("0807120208013700", 3), ("0807120208013600", 3), ("0d01020304", 4), ("0807120e0803120a08011000180922022061", 13),
    ("0807120e0803120a080110001809220220ff", 7), ("0901020304050607 08", 4), ("100012020801", 4),
];

/// The same of responses.
#[rustfmt::skip]
const RESPONSES: &[(&str, u8)] = &[
    ("1003", 6), ("0801", 17), ("08011000", 16), ("080110031001", 16), ("08011a01ff", 7), ("08011a01ff1a00", 7), ("08011a0161 1a0162220208 01", 0),
    ("0801220022020801", 0), ("08012200220208012200", 0), ("080122002200", 6), ("22000a00", 4), ("080522020801080622020801", 0), ("08011a0161220208 01", 0),
    ("08011a02c328220208 01", 7), ("0a00", 4), ("08", 3), ("0801220d0803120908011000180922 01ff", 7), ("08011a00", 17), ("08011a001a00", 17),
    ("08011a03eda080", 7), ("08011a04f4908080", 7), ("08011a02c080", 7),
];

fn first_faults(tally: &mut Tally, seed: u64) {
    let mut s = Script::open(tally, seed, 5 * SLOT, TOPIC);
    for (text, number) in UPDATES {
        let given = s.push(unhex(text), ROOM);
        s.expect_number(text, Call::Update, given, *number);
        s.invalidate();
    }
    for (text, number) in RESPONSES {
        let given = s.answer(unhex(text));
        s.expect_number(text, Call::Response, given, *number);
    }
}

fn unhex(text: &str) -> Vec<u8> {
    let digits: Vec<u32> = text.chars().filter_map(|digit| digit.to_digit(16)).collect();
    digits.chunks_exact(2).map(|pair| (pair[0] * 16 + pair[1]) as u8).collect()
}

/// Row I on a full-size store, duplicates in the queue, all of it replayed; the queue kept where a replay is stale.
fn queue_traps(tally: &mut Tally, seed: u64) {
    let mut s = Script::open(tally, seed, STORE_FULL, TOPIC);
    for turn in 0..1024u64 {
        s.update(&list(5 + turn / 101, &[(turn / 2 % 7, 0, 9)]));
    }
    let i = s.update(&list(50, &[]));
    s.expect("row I", Call::Update, i, refused(28, &[1024]));
    let stale = s.response(&list(6, &[]));
    s.expect("a stale replay", Call::Response, stale, refused(27, &[5, 6]));
    s.response(&list(4, &[]));
    let replays = s.drain_all();
    s.expect("replays of 1,024 pushes", Call::Drain, taken(REPLAY, &[replays as u64]), taken(REPLAY, &[517]));
    s.update(&list(20, &[]));
    s.begin(2);
    let floor = s.update(&list(19, &[]));
    s.expect("the floor stays", Call::Update, floor, refused(26, &[19, 20]));
    let mut s = Script::open(tally, seed, STORE_LEAST + 2 * 12, TOPIC);
    s.update(&list(5, &[]));
    s.update(&list(4, &[]));
    for epoch in [5, 6] {
        s.response(&list(epoch, &[]));
    }
    let full = s.update(&list(9, &[]));
    s.expect("room for two", Call::Update, full, refused(28, &[2]));
    s.invalidate();
    s.update(&list(5, &[]));
    let given = s.response(&list(3, &[]));
    s.expect("behind an invalidate", Call::Response, given, taken(ACCEPTED, &[]));
}

/// A list of 90 bytes as the queue holds it: four segments and six buckets.
fn of_ninety(epoch: u64, first: u64) -> Assignment {
    let buckets = [vec![(0, 1), (2, 3), (4, 5)], vec![(0, 0), (9, 9)], vec![(7, 8)], Vec::new()];
    let parts = buckets.into_iter().zip(first..).map(|(buckets, id)| Part::new("a/b/c", id, 0, 65_535, buckets));
    Assignment { epoch, parts: parts.collect() }
}

/// The free end: a push that just fits and one that is a byte too long, anywhere in the store; freed whole by begin, invalidate and a response to
/// a registered session; how many pushes of 90 bytes a store of 64 KiB takes; where the lists lie.
fn queue_room(tally: &mut Tally, seed: u64) {
    for room in [0, 1, 2, 11, 12, 13, 35, 36, 37] {
        let mut s = Script::open(tally, seed, STORE_LEAST + room, TOPIC);
        let pushes = [(list(1, &[]), 12), (list(1, &[(1, 0, 1)]), 26)];
        let mut left = room;
        for (count, (push, size)) in pushes.iter().cycle().take(4).enumerate() {
            let given = s.update(push);
            let queued = s.stage.record.queue_count as u64;
            let fits = *size <= left;
            s.expect(
                &format!("push {count}, {left} bytes free"),
                Call::Update,
                given,
                if fits { taken(UNCHANGED, &[]) } else { refused(28, &[queued]) },
            );
            left -= if fits { *size } else { 0 };
        }
    }
    let mut s = Script::open(tally, seed, 65_536, TOPIC);
    for freed in 0..4 {
        let taken_before_28 = (0..1024).take_while(|turn| s.update(&of_ninety(9, turn % 3)).answer == UNCHANGED).count();
        s.expect("pushes of 90 bytes in 64 KiB", Call::Update, taken(UNCHANGED, &[taken_before_28 as u64]), taken(UNCHANGED, &[645]));
        let given = s.update(&of_ninety(9, 1));
        s.expect("64 KiB are full", Call::Update, given, refused(28, &[645]));
        match freed {
            0 => s.begin(2),
            1 => s.invalidate(),
            _ => {
                s.response(&list(9, &[]));
                let first = s.drain();
                s.expect("place of the first", Call::Drain, first, taken(REPLAY, &[QUEUE as u64 + 2, 12 + 80]));
                let second = s.drain();
                s.expect("place of the second", Call::Drain, second, taken(REPLAY, &[QUEUE as u64 + 94, 12 + 32 + 80]));
                s.response(&list(9, &[]));
                s.invalidate()
            }
        };
    }
}

/// Begin, invalidate, incarnations, floors.
fn link_traps(tally: &mut Tally, seed: u64) {
    let mut s = Script::open(tally, seed, 8 * SLOT, TOPIC);
    s.update(&list(9, &[]));
    s.response(&list(3, &[]));
    s.begin(2);
    let given = s.response(&list(8, &[]));
    s.expect("floor of an undrained push", Call::Response, given, refused(26, &[8, 9]));
    s.invalidate();
    s.response(&list(9, &[(1, 2, 3)]));
    s.expect("invalidated stays", Call::Response, taken(s.stage.record.invalidated, &[]), taken(1, &[]));
    let given = s.begin(2);
    s.expect("no advance", Call::Begin, given, refused(25, &[2, 2]));
    s.begin(u64::MAX);
    let given = s.begin(u64::MAX);
    s.expect("no advance", Call::Begin, given, refused(25, &[u64::MAX, u64::MAX]));
    let message = list(9, &[]).update(8, Style::Plain, &mut s.rng);
    let given = s.ask(&Ask::Update { message: message.clone(), incarnation: 5, room: ROOM });
    s.expect("23 before 24", Call::Update, given, refused(23, &[5, u64::MAX]));
    let given = s.push(message, ROOM);
    s.expect("24", Call::Update, given, refused(24, &[8, 7]));
    let given = s.ask(&Ask::Response { message: b"\x08\x01".to_vec(), incarnation: 5 });
    s.expect("23 before 17", Call::Response, given, refused(23, &[5, u64::MAX]));
}

/// Replays: equal neighbours, updates between, refused and accepted responses between.
fn drain_traps(tally: &mut Tally, seed: u64) {
    let mut s = Script::open(tally, seed, 16 * SLOT, TOPIC);
    let (a, b) = (list(5, &[(1, 0, 1)]), list(5, &[(2, 0, 1)]));
    for push in [&a, &b, &a, &a] {
        s.update(push);
    }
    s.response(&list(5, &[]));
    let first = s.drain();
    s.expect("place of the first replay", Call::Drain, first, taken(REPLAY, &[QUEUE as u64 + 2, 26]));
    s.update(&list(6, &[(9, 0, 0)]));
    s.response(&list(4, &[]));
    let replays = s.drain_all();
    s.expect("replays left", Call::Drain, taken(REPLAY, &[replays as u64]), taken(REPLAY, &[2]));
    s.invalidate();
    for push in [&a, &b] {
        s.update(&Assignment { epoch: 7, ..push.clone() });
    }
    s.drain();
    s.response(&list(7, &[]));
    s.response(&list(7, &[(3, 0, 0)]));
    let given = s.drain();
    s.expect("an accepted response drops replays", Call::Drain, given, taken(UNCHANGED, &[]));
}

/// Three readers: each is handed every replay, in its own time; 33 behind 2 and before 22; begin sets every position to 0.
fn readers(tally: &mut Tally, seed: u64) {
    let mut s = Script::open(tally, seed, 8 * SLOT, TOPIC);
    s.without_the_rust();
    for epoch in [5, 6] {
        s.update(&list(epoch, &[(epoch, 0, 1)]));
    }
    s.response(&list(5, &[]));
    for (reader, replays) in [(7, 1), (0, 1), (0, 1), (0, 0), (7, 1), (3, 1), (7, 0), (0, 0), (3, 1), (3, 0)] {
        let given = s.drain_for(reader);
        s.expect_number("a reader's own replays", Call::Drain, given, 0);
        s.expect("how many values a replay has", Call::Drain, taken(REPLAY, &[given.count.into()]), taken(REPLAY, &[2 * replays]));
    }
    let positions = s.stage.record.drain_positions;
    s.expect("the readers that drained", Call::Drain, taken(REPLAY, &positions.map(|at| at as u64)[..4]), taken(REPLAY, &[2, 0, 0, 2]));
    s.stage.record.drain_positions[5] = 3;
    for (reader, room, number) in [(8, ROOM - 1, 2), (8, ROOM, 33), (usize::MAX, ROOM, 33), (0, ROOM, 22), (5, ROOM, 22)] {
        let given = s.ask(&Ask::Drain { reader, room });
        s.expect("2, 33, 22", Call::Drain, given, refused(number, &[]));
    }
    s.begin(2);
    let positions = s.stage.record.drain_positions;
    s.expect("no reader has drained", Call::Begin, taken(REPLAY, &[positions.iter().sum::<usize>() as u64]), taken(REPLAY, &[0]));
}

/// Two faults in one segment: 9, 10, 11, 34, 12, 13, then 14. The same list as update and as response.
fn order_in_a_segment(tally: &mut Tally, seed: u64) {
    let bad = |start: u32, buckets: Vec<(i32, i32)>| Assignment { epoch: 1, parts: vec![Part::new("x", 4, start, 9, buckets)] };
    for topic in [TOPIC, "topic://a"] {
        let mut s = Script::open(tally, seed, 4 * SLOT, topic);
        let valid = topic == TOPIC;
        let twice = list(1, &[(1, 0, 1), (1, 0, 1)]);
        let mut again_outside = twice.clone();
        again_outside.parts[1].buckets = vec![(2, 2)];
        let misnamed = Assignment { epoch: 1, parts: [list(1, &[(4, 0, 1)]).parts, bad(0, vec![]).parts].concat() };
        let faults = [
            (bad(10, vec![(-1, 5)]), refused(9, &[4, 3, 10, 9])),
            (bad(65_536, vec![]), refused(9, &[4, 1, 65_536])),
            (bad(0, vec![(0, 5), (5, 5), (5, -1)]), refused(10, &[4, 2, 5, u64::MAX])),
            (bad(0, vec![(0, 5), (5, 5)]), refused(11, &[4])),
            (bad(0, vec![(3, 10), (5, -1)]), refused(10, &[4, 1, 5, u64::MAX])),
            (bad(0, vec![(3, 10), (10, 10)]), refused(11, &[4])),
            (bad(0, vec![(3, 10)]), refused(34, &[4, 0])),
            (bad(2, vec![(2, 9), (0, 1), (20, 30)]), refused(34, &[4, 1])),
            (bad(2, vec![(9, 9), (2, 3), (65_535, 65_535)]), refused(34, &[4, 2])),
            (bad(0, vec![(0, 5)]), if valid { refused(13, &[4]) } else { refused(12, &[]) }),
            (twice, if valid { refused(14, &[1]) } else { refused(12, &[]) }),
            (again_outside, if valid { refused(34, &[1, 0]) } else { refused(12, &[]) }),
            (misnamed, if valid { refused(13, &[4]) } else { refused(12, &[]) }),
        ];
        for (list, expected) in faults {
            let given = s.update(&list);
            s.expect("order in a segment", Call::Update, given, expected);
            let given = s.response(&list);
            s.expect("order in a segment", Call::Response, given, expected);
        }
    }
}

/// '?' or '#' in any of a parent's three parts: 12 at the first segment, behind its ranges; without a segment nothing is asked of the parent.
fn marked_parents(tally: &mut Tally, seed: u64) {
    for path in ["t?/n/m", "t/n#/m", "#/?/m", "t/n/m?"] {
        let mut s = Script::open(tally, seed, 4 * SLOT, &format!("topic://{path}"));
        let named = |start: u32, buckets: Vec<(i32, i32)>| Assignment { epoch: 1, parts: vec![Part::new(path, 4, start, 9, buckets)] };
        let faults = [
            (named(0, vec![]), refused(12, &[])),
            (named(10, vec![]), refused(9, &[4, 3, 10, 9])),
            (named(0, vec![(5, -1)]), refused(10, &[4, 0, 5, u64::MAX])),
            (named(0, vec![(0, 5), (5, 5)]), refused(11, &[4])),
            (named(0, vec![(0, 5), (9, 10)]), refused(34, &[4, 1])),
        ];
        for (list, expected) in faults {
            let given = s.update(&list);
            s.expect("marked parent", Call::Update, given, expected);
            let given = s.response(&list);
            s.expect("marked parent", Call::Response, given, expected);
        }
        let given = s.response(&list(1, &[]));
        s.expect("marked parent, no segment", Call::Response, given, taken(ACCEPTED, &[]));
    }
}

/// A list with a bucket outside its segment's range is turned down in a message; where it stands in the store, it is read as before.
fn stored_outside(tally: &mut Tally, seed: u64) {
    let mut s = Script::open(tally, seed, 4 * SLOT, TOPIC);
    let outside = Sheet { epoch: 5, segments: vec![Segment { id: 4, start: 2, end: 9, buckets: vec![(2, 3), (9, 10)] }] };
    let message = |list: &Assignment, s: &mut Script| list.update(7, Style::Plain, &mut s.rng);
    let (same, other) = (Assignment::of_sheet(&outside, "a/b/c"), list(5, &[(4, 2, 9)]));
    let (same, other) = (message(&same, &mut s), message(&other, &mut s));
    s.response(&list(5, &[]));
    let mut stage = s.stage.clone();
    stage.poke(LIST, &outside.packed());
    for (message, expected) in [(same, refused(34, &[4, 1])), (other, taken(DELTA, &[12 + 8 + 14]))] {
        let given = stage.ask(s.tally, &Ask::Update { message, incarnation: 1, room: ROOM }, None).reply;
        s.expect("a stored bucket outside", Call::Update, given, expected);
    }
    s.invalidate();
    s.update(&list(5, &[]));
    s.response(&list(5, &[]));
    let mut stage = s.stage.clone();
    stage.poke(QUEUE, &entry(&outside));
    let given = stage.ask(s.tally, &Ask::Drain { reader: 0, room: ROOM }, None).reply;
    s.expect("a queued bucket outside", Call::Drain, given, taken(REPLAY, &[QUEUE as u64 + 2, 12 + 22]));
}

/// Ends of a range keep their low 32 bits: (5, 9) here.
fn high_bits(tally: &mut Tally, seed: u64) {
    let mut s = Script::open(tally, seed, 4 * SLOT, TOPIC);
    let name = b"segment://a/b/c/0005-0009-4".to_vec();
    let fields = [Field::Number(1, 4, 64), Field::Number(2, (1 << 32) + 5, 64), Field::Number(3, (7 << 32) + 9, 64), Field::Bytes(4, name)];
    let segment = message(&fields, Style::Plain, &mut s.rng);
    let assignment = message(&[Field::Number(1, 1, 64), Field::Bytes(2, segment)], Style::Plain, &mut s.rng);
    let update = message(&[Field::Number(1, 7, 64), Field::Bytes(2, assignment)], Style::Plain, &mut s.rng);
    let given = s.push(update, ROOM);
    s.expect("high bits", Call::Update, given, taken(UNCHANGED, &[]));
}

fn broker_codes(tally: &mut Tally, seed: u64) {
    let mut s = Script::open(tally, seed, 3 * SLOT, TOPIC);
    for code in [0, 1, 25, 99, (1 << 31) - 1, 1 << 31, (1 << 32) - 1, 1 << 32, u64::MAX, 1 << 63] {
        for text in [None, Some(&b""[..]), Some("no ✗".as_bytes())] {
            let mut fields = vec![Field::Number(1, 77, 64), Field::Number(2, code, 64)];
            fields.extend(text.map(|text| Field::Bytes(3, text.to_vec())));
            let bytes = message(&fields, Style::Plain, &mut s.rng);
            let given = s.answer(bytes);
            s.expect("16", Call::Response, given, refused(16, &[i64::from(code as i32) as u64]));
        }
    }
}
