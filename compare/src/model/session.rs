//! The session's calls: what each answers and writes, for any record, store, message and output.
use super::delta::Delta;
use super::messages::{WireAssignment, WireSegment};
use super::sheet::{SHEET_MOST, Sheet, Taker, outside};
use super::{identity, messages, names};
use crate::oracle;
use crate::raw::{self, READERS, Record, Reply};
use crate::reply::{refused, taken, word};

pub const SLOT: usize = 2048;
pub const STORE_LEAST: usize = 3 * SLOT;
pub const STORE_FULL: usize = 2_103_296;
pub const QUEUE_MOST: usize = 1024;
pub const OUT_LEAST: usize = 3210;
const BASELINE: usize = SLOT;
pub const LIST: usize = 2 * SLOT;
/// Where the queue's entries begin, one behind the other up to the store's end (02 j).
pub const QUEUE: usize = STORE_LEAST;

/// Bytes and their place in the store.
pub type Write = (usize, Vec<u8>);

/// What a call should give.
pub struct Prediction {
    pub reply: Reply,
    pub state: Record,
    pub writes: Vec<Write>,
    pub out: Vec<u8>,
}

/// "Sheets one after another, each behind its 16-bit length, most significant bit first".
pub fn entry(sheet: &Sheet) -> Vec<u8> {
    let packed = sheet.packed();
    let length = packed.len() as u16;
    [&length.to_be_bytes(), &packed[..]].concat()
}

/// The queue in a store: each entry's sheet with the place of the sheet, and where the last entry ends.
pub struct Queue {
    pub entries: Vec<(usize, Sheet)>,
    pub end: usize,
}

impl Queue {
    /// Nothing where a length or a sheet does not read, or a sheet does not fill just its length.
    pub fn read(store: &[u8], count: usize) -> Option<Self> {
        let mut queue = Self { entries: Vec::new(), end: QUEUE };
        for _ in 0..count {
            let mut taker = Taker(store.get(queue.end..)?);
            let length = usize::from(taker.short()?);
            let sheet = Sheet::whole(taker.bytes(length)?)?;
            queue.entries.push((queue.end + 2, sheet));
            queue.end += 2 + length;
        }
        Some(queue)
    }
}

pub fn fresh(consumer_id: u64, incarnation: u64) -> Record {
    Record { consumer_id, incarnation, ..Record::default() }
}

/// A flag is any byte: all but 0 say yes.
pub fn is_set(flag: u8) -> bool {
    flag != 0
}

/// The record as a call writes it: its flags are 1 or 0, and without a floor there is the number 0.
pub fn normal(record: Record) -> Record {
    let [has_floor, registered, invalidated] = [record.has_floor, record.registered, record.invalidated].map(|flag| u8::from(is_set(flag)));
    let epoch_floor = if is_set(has_floor) { record.epoch_floor } else { 0 };
    Record { epoch_floor, has_floor, registered, invalidated, ..record }
}

fn with_floor(record: Record, floor: u64) -> Record {
    normal(Record { has_floor: 1, epoch_floor: floor, ..record })
}

fn higher_floor(record: &Record, epoch: u64) -> u64 {
    if is_set(record.has_floor) { record.epoch_floor.max(epoch) } else { epoch }
}

/// A call that is taken, and writes nothing but the record.
fn unchanged(record: &Record, reply: Reply) -> Prediction {
    Prediction { reply, state: normal(*record), writes: Vec::new(), out: Vec::new() }
}

/// A call that is refused: the record stays, byte by byte.
fn left(record: &Record, reply: Reply) -> Prediction {
    Prediction { reply, state: *record, writes: Vec::new(), out: Vec::new() }
}

/// The slots in use.
struct Slots<'a> {
    topic: &'a str,
    /// Baseline and list of a registered session.
    held: Option<(Sheet, Sheet)>,
    queue: Queue,
}

/// 1, then 2 where an output of `room` bytes is due.
fn long_enough(store: &[u8], room: Option<usize>) -> Result<(), Reply> {
    if store.len() < STORE_LEAST {
        return Err(refused(1, &[]));
    }
    if room.is_some_and(|room| room < OUT_LEAST) { Err(refused(2, &[])) } else { Ok(()) }
}

/// 22.
fn slots<'a>(record: &Record, store: &'a [u8]) -> Result<Slots<'a>, Reply> {
    in_use(record, store).ok_or_else(|| refused(22, &[]))
}

/// Nothing where a slot in use or the queue is malformed, or a count beyond 1,024 or the queue.
fn in_use<'a>(record: &Record, store: &'a [u8]) -> Option<Slots<'a>> {
    let sheet = |place: usize| Sheet::at_front(&store[place..place + SLOT]);
    let ([topic, _, _], _) = identity::read(&store[..SLOT])?;
    if record.queue_count > QUEUE_MOST || record.drain_positions.iter().any(|position| *position > record.queue_count) {
        return None;
    }
    let held = if is_set(record.registered) { Some((sheet(BASELINE)?, sheet(LIST)?)) } else { None };
    let queue = Queue::read(store, record.queue_count)?;
    Some(Slots { topic, held, queue })
}

/// 9 to 15 and 34 of an assignment. What is no parent by 02 h is 12 where the Rust finds that the empty text is none.
pub fn content(assignment: &WireAssignment, topic: &str) -> Result<Sheet, Reply> {
    let parent = if names::is_parent(topic) { topic } else { "" };
    let sheet = inside(assignment, parent)?;
    if sheet.size() > SHEET_MOST { Err(refused(15, &[])) } else { Ok(sheet) }
}

/// 9 to 14 and 34. The segments before the first with a bucket outside its range are the Rust's; of that one it is told with no parent, so that
/// it finds 9, 10, 11 or else 12, directly before which 34 is due.
fn inside(assignment: &WireAssignment, parent: &str) -> Result<Sheet, Reply> {
    let bucket = |segment: &WireSegment| {
        let buckets = segment.buckets.iter().map(|(start, end)| (i64::from(*start), i64::from(*end)));
        outside((segment.start.into(), segment.end.into()), buckets)
    };
    let found = assignment.segments.iter().enumerate().find_map(|(at, segment)| bucket(segment).map(|index| (at, index)));
    let Some((at, index)) = found else {
        return oracle::intake(assignment, parent);
    };
    let of = |segments: &[WireSegment]| WireAssignment { epoch: assignment.epoch, segments: segments.to_vec() };
    oracle::intake(&of(&assignment.segments[..at]), parent)?;
    match oracle::intake(&of(&assignment.segments[at..=at]), "") {
        Err(reply) if reply.number != 12 => Err(reply),
        _ => Err(refused(34, &[assignment.segments[at].id, index as u64])),
    }
}

fn same_incarnation(record: &Record, incarnation: u64) -> Result<(), Reply> {
    if incarnation == record.incarnation { Ok(()) } else { Err(refused(23, &[incarnation, record.incarnation])) }
}

fn above_floor(record: &Record, epoch: u64) -> Result<(), Reply> {
    let below = is_set(record.has_floor) && epoch < record.epoch_floor;
    if below { Err(refused(26, &[epoch, record.epoch_floor])) } else { Ok(()) }
}

pub fn update(record: &Record, store: &[u8], message: &[u8], incarnation: u64, room: usize) -> Prediction {
    updated(record, store, message, incarnation, room).unwrap_or_else(|reply| left(record, reply))
}

fn updated(record: &Record, store: &[u8], message: &[u8], incarnation: u64, room: usize) -> Result<Prediction, Reply> {
    long_enough(store, Some(room))?;
    let slots = slots(record, store)?;
    let update = messages::update(message).map_err(|number| refused(number, &[]))?;
    same_incarnation(record, incarnation)?;
    if update.consumer_id != record.consumer_id {
        return Err(refused(24, &[update.consumer_id, record.consumer_id]));
    }
    let incoming = content(&update.assignment, slots.topic)?;
    let Some((_, list)) = slots.held else {
        return queued(record, store.len() - slots.queue.end, slots.queue.end, &incoming);
    };
    if incoming.epoch < list.epoch {
        return Err(refused(27, &[incoming.epoch, list.epoch]));
    }
    if incoming == list {
        return Ok(unchanged(record, taken(raw::UNCHANGED, &[])));
    }
    let out = Delta::between(&list, &incoming).packed().expect("counts of two sheets");
    Ok(Prediction {
        reply: taken(raw::DELTA, &[out.len() as u64]),
        state: with_floor(*record, higher_floor(record, incoming.epoch)),
        writes: vec![(LIST, incoming.packed())],
        out,
    })
}

/// A push to an unregistered session: 26, 28, or the queue's next entry, at its end, behind which so many bytes are free.
fn queued(record: &Record, free: usize, end: usize, incoming: &Sheet) -> Result<Prediction, Reply> {
    above_floor(record, incoming.epoch)?;
    let entry = entry(incoming);
    if record.queue_count == QUEUE_MOST || entry.len() > free {
        return Err(refused(28, &[record.queue_count as u64]));
    }
    Ok(Prediction {
        reply: taken(raw::UNCHANGED, &[]),
        state: normal(Record { queue_count: record.queue_count + 1, ..*record }),
        writes: vec![(end, entry)],
        out: Vec::new(),
    })
}

pub fn response(record: &Record, store: &[u8], message: &[u8], incarnation: u64) -> Prediction {
    responded(record, store, message, incarnation).unwrap_or_else(|reply| left(record, reply))
}

fn responded(record: &Record, store: &[u8], message: &[u8], incarnation: u64) -> Result<Prediction, Reply> {
    long_enough(store, None)?;
    let slots = slots(record, store)?;
    let response = messages::response(message).map_err(|number| refused(number, &[]))?;
    same_incarnation(record, incarnation)?;
    let Some(assignment) = response.assignment else {
        return Err(response.error.map_or_else(|| refused(17, &[response.request_id]), |code| refused(16, &[word(code)])));
    };
    let baseline = content(&assignment, slots.topic)?;
    above_floor(record, baseline.epoch)?;
    let replayed = if is_set(record.registered) { &[][..] } else { &slots.queue.entries[..] };
    let mut last = &baseline;
    for (_, entry) in replayed {
        if entry.epoch < last.epoch {
            return Err(refused(27, &[entry.epoch, last.epoch]));
        }
        last = entry;
    }
    let state = Record { registered: 1, drain_positions: [0; READERS], queue_count: replayed.len(), ..*record };
    Ok(Prediction {
        reply: taken(raw::ACCEPTED, &[]),
        state: with_floor(state, higher_floor(record, last.epoch)),
        writes: vec![(BASELINE, baseline.packed()), (LIST, last.packed())],
        out: Vec::new(),
    })
}

pub fn drain(record: &Record, store: &[u8], reader: usize, room: usize) -> Prediction {
    drained(record, store, reader, room).unwrap_or_else(|reply| left(record, reply))
}

/// 1, 2, 33, 22; then the next change from the reader's own position on.
fn drained(record: &Record, store: &[u8], reader: usize, room: usize) -> Result<Prediction, Reply> {
    long_enough(store, Some(room))?;
    let position = *record.drain_positions.get(reader).ok_or_else(|| refused(33, &[]))?;
    let slots = slots(record, store)?;
    let Some((baseline, _)) = slots.held else {
        return Ok(unchanged(record, taken(raw::UNCHANGED, &[])));
    };
    let queue = &slots.queue.entries;
    let before = |index: usize| if index == 0 { &baseline } else { &queue[index - 1].1 };
    let moved = |position| {
        let mut state = normal(*record);
        state.drain_positions[reader] = position;
        state
    };
    let next = (position..queue.len()).find(|index| &queue[*index].1 != before(*index));
    let Some(index) = next else {
        return Ok(Prediction { state: moved(queue.len()), ..unchanged(record, taken(raw::UNCHANGED, &[])) });
    };
    let (place, entry) = &queue[index];
    let out = Delta::between(before(index), entry).packed().expect("counts of two sheets");
    Ok(Prediction { reply: taken(raw::REPLAY, &[*place as u64, out.len() as u64]), state: moved(index + 1), writes: Vec::new(), out })
}

fn unregistered(record: &Record, incarnation: u64, invalidated: bool) -> Prediction {
    let state = Record { incarnation, invalidated: u8::from(invalidated), registered: 0, queue_count: 0, drain_positions: [0; READERS], ..*record };
    unchanged(&state, taken(raw::ACCEPTED, &[]))
}

pub fn begin(record: &Record, incarnation: u64) -> Prediction {
    if incarnation <= record.incarnation {
        return left(record, refused(25, &[incarnation, record.incarnation]));
    }
    unregistered(record, incarnation, false)
}

pub fn invalidate(record: &Record) -> Prediction {
    unregistered(record, record.incarnation, true)
}

/// 1, then 22.
pub fn check(record: &Record, store: &[u8]) -> Prediction {
    let checked = long_enough(store, None).and_then(|()| slots(record, store));
    left(record, checked.map_or_else(|reply| reply, |_| taken(raw::ACCEPTED, &[])))
}
