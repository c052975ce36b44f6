//! The window of lost counts (02, request n). What the calls answer is reckoned over a plain list of counts, anew each time.
//! The bytes are those that docs/EXPORTS.md says: a mark of 16 bits, then 256 places of 16 bits, most significant byte first.
//! A mark below 256 is how many counts there are, in the first places; from 256 on all places are in use, and mark - 256 is
//! that of the oldest count.
use crate::raw::{self, Reply};
use crate::reply::{refused, taken};

pub const PLACES: usize = 256;
pub const WINDOW: usize = 2 + 2 * PLACES;
pub const COUNT_MOST: u64 = 65_535;

/// Sum and largest of the latest counts.
pub fn reckoned(counts: &[u64]) -> Reply {
    let latest = &counts[counts.len().saturating_sub(PLACES)..];
    taken(raw::FOUND, &[latest.iter().sum(), latest.iter().copied().max().unwrap_or(0)])
}

fn number(window: &[u8], place: usize) -> usize {
    usize::from(u16::from_be_bytes([window[2 * place], window[2 * place + 1]]))
}

fn put(window: &mut [u8], place: usize, value: usize) {
    let value = u16::try_from(value).expect("16 bits");
    window[2 * place..2 * place + 2].copy_from_slice(&value.to_be_bytes());
}

/// The counts in a window, the oldest first; none where the bytes are no window.
pub fn counts(window: &[u8]) -> Option<Vec<u64>> {
    if window.len() < WINDOW || number(window, 0) >= 2 * PLACES {
        return None;
    }
    let mark = number(window, 0);
    let places = if mark < PLACES { (0..mark).collect::<Vec<_>>() } else { (mark..mark + PLACES).map(|at| at % PLACES).collect() };
    Some(places.into_iter().map(|place| number(window, 1 + place) as u64).collect())
}

/// The answer to a count more, and the bytes after it.
pub fn push(window: &[u8], count: u64) -> (Reply, Vec<u8>) {
    let mut after = window.to_vec();
    let Some(mut counts) = counts(window).filter(|_| count <= COUNT_MOST) else {
        return (refused(38, &[]), after);
    };
    let mark = number(window, 0);
    counts.push(count);
    put(&mut after, 1 + mark % PLACES, count as usize);
    put(&mut after, 0, if mark == 2 * PLACES - 1 { PLACES } else { mark + 1 });
    (reckoned(&counts), after)
}

/// A clearing is never refused; bytes without room for a mark stay as they are.
pub fn clear(window: &[u8]) -> (Reply, Vec<u8>) {
    let mut after = window.to_vec();
    if after.len() >= 2 {
        put(&mut after, 0, 0);
    }
    (reckoned(&[]), after)
}

pub fn current(window: &[u8]) -> Reply {
    counts(window).map_or_else(|| refused(38, &[]), |counts| reckoned(&counts))
}
