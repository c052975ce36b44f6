//! The outer message of a connection: against the model, and against what prost reads by the Rust's own table.
use crate::generate::{damaged, put_varint};
use crate::model::command::{MESSAGES, command};
use crate::ours;
use crate::pb::BaseCommand;
use crate::raw::{self, Reply};
use crate::reply::{show, word};
use crate::rng::Rng;
use crate::spoil::reported;
use crate::tally::{Call, Tally, hex};
use prost::Message;

/// One of the Rust's messages of a command, where it is there, and its number.
fn carried(command: &BaseCommand) -> Option<(Vec<u8>, u64)> {
    match command.r#type {
        74 => command.scalable_topic_subscribe_response.as_ref().map(|message| (message.encode_to_vec(), message.request_id)),
        75 => command.scalable_topic_assignment_update.as_ref().map(|message| (message.encode_to_vec(), message.consumer_id)),
        _ => command.watch_scalable_topics_update.as_ref().map(|message| (message.encode_to_vec(), message.watch_id)),
    }
}

/// The same of a message that stands by itself in a command of its type.
fn alone(kind: u64, message: &[u8]) -> Option<(Vec<u8>, u64)> {
    let mut bytes = vec![0x08, kind as u8];
    put_part(&mut bytes, kind, message);
    carried(&BaseCommand::decode(&bytes[..]).ok()?)
}

/// What the Rust says of an answer that is no refusal: its type and, of the three, the message at the place told, or none, or one merged from parts.
fn disagrees(bytes: &[u8], given: &Reply, read: &BaseCommand) -> Option<String> {
    let ours = MESSAGES.contains(&word(read.r#type));
    let held = carried(read).filter(|_| ours);
    let fits = match (given.answer, given.count, given.number) {
        (raw::FOUND, 4, 0) => {
            let part = usize::try_from(given.second).ok().zip(usize::try_from(given.second.wrapping_add(given.third)).ok());
            let message = part.and_then(|(start, end)| bytes.get(start..end));
            held.is_some() && message.and_then(|message| alone(given.first, message)) == held && held.is_some_and(|(_, id)| id == given.fourth)
        }
        (raw::NO, 2, 0) => ours && held.is_some() == (given.second > 1) && given.second != 1,
        (raw::NO, 1, 0) => !ours,
        _ => false,
    };
    (!fits || given.first != word(read.r#type)).then(|| format!("ours {}, the Rust reads {read:?}", show(given)))
}

fn check(tally: &mut Tally, bytes: &[u8]) {
    let mut lent = bytes.to_vec();
    let given = ours::command(&mut lent);
    let expected = command(bytes);
    let read = BaseCommand::decode(bytes).ok().filter(|_| expected.answer != raw::REFUSED);
    tally.count(Call::Command, &given, read.is_some());
    let model = if given != expected {
        Some(format!("ours {}, expected {}", show(&given), show(&expected)))
    } else {
        (lent != bytes).then(|| "a slice lent for reading was changed".into())
    };
    let rust = read.and_then(|read| disagrees(bytes, &given, &read));
    if let Some(wrong) = reported([model, rust]) {
        tally.differ(Call::Command, &wrong, || hex(bytes));
    }
}

fn put_part(bytes: &mut Vec<u8>, number: u64, part: &[u8]) {
    put_varint(bytes, number * 8 + 2);
    put_varint(bytes, part.len() as u64);
    bytes.extend_from_slice(part);
}

pub struct Commands {
    rng: Rng,
}

impl Commands {
    pub fn new(seed: u64) -> Self {
        Self { rng: Rng::new(seed, "commands") }
    }

    /// A type: mostly one of the three, else one beside them, a negative one or any.
    fn kind(&mut self) -> u64 {
        let (beside, any) = (70 + self.rng.below(12) as u64, self.rng.word());
        let low = any << 32 | self.rng.pick(&MESSAGES);
        self.rng.pick(&[74, 75, 77, 74, 75, 77, beside, 0, 2, u64::MAX, any, low])
    }

    /// A message of field 1 and an unknown one, either of them perhaps absent or again.
    fn message(&mut self) -> Vec<u8> {
        let mut bytes = Vec::new();
        for _ in 0..self.rng.below(3) {
            bytes.push(0x08);
            put_varint(&mut bytes, self.rng.word() >> self.rng.below(64));
            let length = self.rng.below(4);
            if self.rng.one_in(2) {
                put_part(&mut bytes, 15, &vec![0xff; length]);
            }
        }
        bytes
    }

    /// A field that the Rust does not know.
    fn unknown(&mut self) -> Vec<u8> {
        let mut bytes = Vec::new();
        let number = self.rng.between(100, 3000) as u64;
        let (kind, length) = self.rng.pick(&[(0, 0), (1, 8), (5, 4)]);
        if self.rng.one_in(2) {
            let part = self.message();
            put_part(&mut bytes, number, &part);
        } else {
            put_varint(&mut bytes, number * 8 + kind);
            if kind == 0 {
                put_varint(&mut bytes, self.rng.word());
            }
            bytes.extend(self.rng.bytes(length));
        }
        bytes
    }

    /// A type, perhaps absent or again, mostly its message, perhaps others, unknown fields; in any order.
    fn command(&mut self) -> Vec<u8> {
        let mut fields = Vec::new();
        let kind = self.kind();
        for _ in 0..self.rng.pick(&[1, 1, 1, 1, 1, 0, 2]) {
            let mut bytes = vec![0x08];
            put_varint(&mut bytes, kind);
            fields.push(bytes);
        }
        let others = (0..self.rng.below(3)).map(|_| self.rng.pick(&MESSAGES)).collect::<Vec<_>>();
        let wanted = MESSAGES.iter().copied().filter(|number| *number == kind % (1 << 32));
        for number in wanted.chain(others.into_iter().filter(|_| self.rng.one_in(3))).collect::<Vec<_>>() {
            let mut bytes = Vec::new();
            let message = self.message();
            put_part(&mut bytes, number, &message);
            fields.push(bytes);
        }
        for _ in 0..self.rng.below(3) {
            fields.push(self.unknown());
        }
        self.rng.shuffle(&mut fields);
        fields.concat()
    }

    pub fn step(&mut self, tally: &mut Tally) {
        for _ in 0..40 {
            let bytes = self.command();
            let lent = if self.rng.one_in(4) { damaged(&bytes, &mut self.rng) } else { bytes };
            check(tally, &lent);
        }
    }
}

/// Types at the ends; a message absent, in one part, in several; wrong types and broken forms; each prefix of a whole command.
pub fn directed(tally: &mut Tally) {
    let update = |count: usize| [&[0x08, 75][..], &[0xda, 0x04, 0x02, 0x08, 0x07].repeat(count)].concat();
    for count in 0..4 {
        let bytes = update(count);
        for end in 0..=bytes.len() {
            check(tally, &bytes[..end]);
        }
    }
    for kind in (0..128).chain([u64::MAX, 1 << 31, (1 << 32) + 75, u64::from(u32::MAX)]) {
        let mut bytes = vec![0x08];
        put_varint(&mut bytes, kind);
        for number in MESSAGES {
            put_part(&mut bytes, number, &[0x08, number as u8]);
        }
        check(tally, &bytes);
    }
    for kind in 0..8 {
        for number in [1, 2, 74, 75, 76, 77, 1000, (1 << 29) - 1, 1 << 29] {
            let mut bytes = update(1);
            put_varint(&mut bytes, number * 8 + kind);
            bytes.extend([8, 0, 0, 0, 0, 0, 0, 0, 0]);
            check(tally, &bytes);
        }
    }
    check(tally, &[0x08, 75, 0xda, 0x04, 0x01, 0x00]);
    check(tally, &[0x08, 75, 0xda, 0x04, 0x03, 0x0a, 0x01, 0x08]);
}
