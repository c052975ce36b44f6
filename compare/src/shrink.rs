//! A shorter input that still shows a difference.

/// Leaves out stretches, then bytes, as long as the difference stays. An input that does not show it again is given back as it is.
pub fn shrunk(input: &[u8], shows: impl Fn(&[u8]) -> bool) -> Vec<u8> {
    let mut best = input.to_vec();
    if best.len() > 4096 || !shows(&best) {
        return best;
    }
    let mut size = best.len() / 2;
    let mut tries = 4000;
    while size > 0 && tries > 0 {
        let mut at = 0;
        while at + size <= best.len() && tries > 0 {
            let shorter = [&best[..at], &best[at + size..]].concat();
            tries -= 1;
            if shows(&shorter) { best = shorter } else { at += size }
        }
        size /= 2;
    }
    best
}
