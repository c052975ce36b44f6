//! The identity slot, open and `matches_registration`.
use super::session::{STORE_LEAST, Write};
use super::sheet::Taker;
use crate::raw::{self, Reply};
use crate::reply::{refused, taken};

pub const TEXTS_MOST: usize = 2041;

/// Topic, subscription and consumer name as any bytes; the kind as the integer of the wire.
#[derive(Clone, Debug)]
pub struct Texts {
    pub texts: [Vec<u8>; 3],
    pub kind: i32,
}

impl Texts {
    fn length(&self) -> usize {
        self.texts.iter().map(Vec::len).sum()
    }

    /// 0 stream, 1 checkpoint; an unknown integer is a stream.
    pub fn kind_byte(&self) -> u8 {
        u8::from(self.kind == 1)
    }

    pub fn packed(&self) -> Vec<u8> {
        let lengths = self.texts.iter().flat_map(|text| (text.len() as u16).to_be_bytes());
        lengths.chain([self.kind_byte()]).chain(self.texts.concat()).collect()
    }
}

/// The identity in a slot, or none where it is malformed.
pub fn read(slot: &[u8]) -> Option<([&str; 3], u8)> {
    let mut taker = Taker(slot);
    let lengths = [taker.short()?, taker.short()?, taker.short()?].map(usize::from);
    let kind = taker.byte()?;
    if lengths.iter().sum::<usize>() > TEXTS_MOST || kind > 1 {
        return None;
    }
    let mut text = |length| taker.bytes(length).and_then(|bytes| std::str::from_utf8(bytes).ok());
    Some(([text(lengths[0])?, text(lengths[1])?, text(lengths[2])?], kind))
}

/// Open: 1, 7, 8; else what is written to the store.
pub fn open(texts: &Texts, store_length: usize) -> (Reply, Vec<Write>) {
    let number = if store_length < STORE_LEAST {
        1
    } else if texts.texts.iter().any(|text| std::str::from_utf8(text).is_err()) {
        7
    } else if texts.length() > TEXTS_MOST {
        8
    } else {
        return (taken(raw::ACCEPTED, &[]), vec![(0, texts.packed())]);
    };
    (refused(number, &[]), Vec::new())
}

/// `matches_registration`: 1, then 22 for the identity slot alone.
pub fn matches(store: &[u8], texts: &Texts) -> Reply {
    if store.len() < STORE_LEAST {
        return refused(1, &[]);
    }
    let Some((held, kind)) = read(&store[..2048]) else {
        return refused(22, &[]);
    };
    let same = held.iter().zip(&texts.texts).all(|(held, text)| held.as_bytes() == text) && kind == texts.kind_byte();
    taken(if same { raw::YES } else { raw::NO }, &[])
}
