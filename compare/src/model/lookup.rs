//! A key's segment (02, request a): MurmurHash3 x86_32 with seed 0, and the lowest id that takes its low 16 bits.
use super::sheet::{Segment, Sheet};
use crate::raw::{self, Reply};
use crate::reply::{refused, taken};

pub const KEY_MOST: usize = 65_535;

/// Numbers below this one; each product and each sum is taken modulo it.
const WORD: u64 = 1 << 32;

fn turned(number: u64, bits: u32) -> u64 {
    (number << bits) % WORD + (number >> (32 - bits))
}

/// The whole hash. A block is up to four bytes, low byte first; one of fewer is the tail.
pub fn murmur3(key: &[u8]) -> u32 {
    let mut hash = 0;
    for block in key.chunks(4) {
        let number = block.iter().rev().fold(0, |value, byte| value * 256 + u64::from(*byte));
        hash ^= turned(number * 0xcc9e_2d51 % WORD, 15) * 0x1b87_3593 % WORD;
        if block.len() == 4 {
            hash = (turned(hash, 13) * 5 + 0xe654_6b64) % WORD;
        }
    }
    hash ^= key.len() as u64 % WORD;
    for (shift, factor) in [(16, 0x85eb_ca6b), (13, 0xc2b2_ae35), (16, 1)] {
        hash = (hash ^ hash >> shift) * factor % WORD;
    }
    hash as u32
}

pub fn takes(segment: &Segment, hash: u16) -> bool {
    let inside = |(start, end): &(u16, u16)| *start <= hash && hash <= *end;
    inside(&(segment.start, segment.end)) && (segment.buckets.is_empty() || segment.buckets.iter().any(inside))
}

/// 32, 20, then the id or none.
pub fn segment_for_key(key: &[u8], sheet: &[u8]) -> Reply {
    if key.len() > KEY_MOST {
        return refused(32, &[]);
    }
    let Some(sheet) = Sheet::whole(sheet) else {
        return refused(20, &[]);
    };
    let hash = murmur3(key) as u16;
    let ids = sheet.segments.iter().filter(|segment| takes(segment, hash)).map(|segment| segment.id);
    ids.min().map_or_else(|| taken(raw::NO, &[]), |id| taken(raw::FOUND, &[id]))
}
