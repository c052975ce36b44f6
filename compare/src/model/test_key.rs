//! Test keys (02, request i): the four bytes that have a hash, and those with the smallest hash that a segment takes.
use super::lookup::takes;
use super::sheet::Sheet;
use crate::raw::{self, Reply};
use crate::reply::{refused, taken};

/// The number with which the product is 1 modulo 2^32. Each round doubles the low bits that are right; an odd number
/// starts with three.
fn inverse(factor: u32) -> u32 {
    let mut other = factor;
    for _ in 0..4 {
        other = other.wrapping_mul(2_u32.wrapping_sub(factor.wrapping_mul(other)));
    }
    other
}

/// The number that was `after` once it was shifted right by so many bits and that was added without carry: high bits
/// first.
fn before_shift(after: u32, bits: u32) -> u32 {
    let mut before = after;
    for _ in 0..32 / bits {
        before = after ^ before >> bits;
    }
    before
}

/// Each step of the hash of four bytes undone, the last first.
pub fn key_for_hash(hash: u32) -> [u8; 4] {
    let mut number = hash;
    for (bits, factor) in [(16, 0xc2b2_ae35), (13, 0x85eb_ca6b), (16, 1)] {
        number = before_shift(number, bits).wrapping_mul(inverse(factor));
    }
    number ^= 4;
    number = number.wrapping_sub(0xe654_6b64).wrapping_mul(inverse(5)).rotate_right(13);
    number = number.wrapping_mul(inverse(0x1b87_3593)).rotate_right(15).wrapping_mul(inverse(0xcc9e_2d51));
    number.to_le_bytes()
}

/// 20, then the key or none. Every value of the range is tried, the lowest first.
pub fn key_in_segment(sheet: &[u8], id: u64) -> Reply {
    let Some(sheet) = Sheet::whole(sheet) else {
        return refused(20, &[]);
    };
    let segment = sheet.segments.iter().find(|segment| segment.id == id);
    let hash = segment.and_then(|segment| (segment.start..=segment.end).find(|value| takes(segment, *value)));
    hash.map_or_else(|| taken(raw::NO, &[]), |hash| taken(raw::FOUND, &key_for_hash(hash.into()).map(u64::from)))
}
