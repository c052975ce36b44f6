//! The outer message, BaseCommand: which message it carries, where, and the number to route it by.
use super::wire::{BROKEN, MISSING, WRONG_TYPE, raw_fields, skipped, varint};
use crate::raw::{self, Reply};
use crate::reply::{refused, taken, word};
use std::ops::Range;

/// The fields of the three messages: response, update, watch update. Each has the number of its type.
pub const MESSAGES: [u64; 3] = [74, 75, 77];

/// The last type, and the parts of the three fields as they come.
#[derive(Default)]
struct Shell {
    kind: Option<u64>,
    parts: Vec<(u64, Range<usize>)>,
}

/// 3 and 4 in byte order.
fn shell(bytes: &[u8]) -> Result<Shell, u8> {
    let (mut shell, mut at) = (Shell::default(), 0);
    while at < bytes.len() {
        let (key, behind) = varint(bytes, at, bytes.len())?;
        let (number, kind) = (key / 8, key % 8);
        if key > u64::from(u32::MAX) || number == 0 || matches!(kind, 3 | 4 | 6 | 7) {
            return Err(BROKEN);
        }
        let part = MESSAGES.contains(&number);
        if (number == 1 && kind != 0) || (part && kind != 2) {
            return Err(WRONG_TYPE);
        }
        let end = skipped(kind, bytes, behind, bytes.len())?;
        if number == 1 {
            shell.kind = Some(varint(bytes, behind, end)?.0);
        }
        if part {
            shell.parts.push((number, varint(bytes, behind, end)?.1..end));
        }
        at = end;
    }
    Ok(shell)
}

/// The last number of field 1 of a message, 0 where there is none before its first broken field.
fn id(message: &[u8]) -> u64 {
    let fields = raw_fields(message).into_iter().filter(|field| field.number == 1);
    let numbers = fields.filter_map(|field| {
        let (key, behind) = varint(message, field.bytes.start, field.bytes.end).ok()?;
        (key % 8 == 0).then(|| varint(message, behind, field.bytes.end).ok())?
    });
    numbers.last().map_or(0, |(number, _)| number)
}

pub fn command(bytes: &[u8]) -> Reply {
    let Shell { kind, parts } = match shell(bytes) {
        Ok(shell) => shell,
        Err(fault) => return refused(fault, &[]),
    };
    let Some(kind) = kind else { return refused(MISSING, &[]) };
    let kind = word(kind as u32 as i32);
    let mut places = parts.into_iter().filter(|(number, _)| *number == kind).map(|(_, place)| place);
    match (MESSAGES.contains(&kind), places.next(), places.count()) {
        (false, _, _) => taken(raw::NO, &[kind]),
        (true, None, _) => taken(raw::NO, &[kind, 0]),
        (true, Some(place), 0) => taken(raw::FOUND, &[kind, place.start as u64, place.len() as u64, id(&bytes[place])]),
        (true, Some(_), more) => taken(raw::NO, &[kind, 1 + more as u64]),
    }
}
