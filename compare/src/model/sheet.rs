//! The sheet, a packed list.

pub const SHEET_MOST: usize = 2048;

#[derive(Clone, Debug, PartialEq, Eq)]
pub struct Segment {
    pub id: u64,
    pub start: u16,
    pub end: u16,
    /// In wire order.
    pub buckets: Vec<(u16, u16)>,
}

/// "A bucket not wholly inside": the index of the first, counted from 0 (02 e).
pub fn outside(range: (i64, i64), mut buckets: impl Iterator<Item = (i64, i64)>) -> Option<usize> {
    buckets.position(|(start, end)| [start, end].iter().any(|value| !(range.0..=range.1).contains(value)))
}

#[derive(Clone, Debug, PartialEq, Eq)]
pub struct Sheet {
    pub epoch: u64,
    /// Rising by id.
    pub segments: Vec<Segment>,
}

/// Takes packed numbers from the front of its bytes; nothing where they end early.
pub struct Taker<'a>(pub &'a [u8]);

impl<'a> Taker<'a> {
    fn number(&mut self, bytes: usize) -> Option<u64> {
        let (front, rest) = self.0.split_at_checked(bytes)?;
        self.0 = rest;
        Some(front.iter().fold(0, |value, byte| value << 8 | u64::from(*byte)))
    }

    pub fn word(&mut self) -> Option<u64> {
        self.number(8)
    }

    pub fn short(&mut self) -> Option<u16> {
        self.number(2).map(|value| value as u16)
    }

    pub fn byte(&mut self) -> Option<u8> {
        self.number(1).map(|value| value as u8)
    }

    pub fn bytes(&mut self, length: usize) -> Option<&'a [u8]> {
        let (front, rest) = self.0.split_at_checked(length)?;
        self.0 = rest;
        Some(front)
    }

    /// A record: nothing where it ends early, its range or a bucket is reversed, or buckets share a value.
    pub fn record(&mut self) -> Option<Segment> {
        let (id, start, end, count) = (self.word()?, self.short()?, self.short()?, self.short()?);
        let mut buckets = Vec::new();
        for _ in 0..count {
            buckets.push((self.short()?, self.short()?));
        }
        let good = start <= end && buckets.iter().all(|(start, end)| start <= end) && !share_a_value(&buckets);
        good.then_some(Segment { id, start, end, buckets })
    }

    /// That many records, their ids rising.
    pub fn records(&mut self, count: u16) -> Option<Vec<Segment>> {
        let mut records: Vec<Segment> = Vec::new();
        for _ in 0..count {
            let record = self.record()?;
            if records.last().is_some_and(|last| last.id >= record.id) {
                return None;
            }
            records.push(record);
        }
        Some(records)
    }
}

/// Whether two of the ranges have a value in common.
fn share_a_value(ranges: &[(u16, u16)]) -> bool {
    let mut taken = ranges.to_vec();
    taken.sort_unstable();
    taken.windows(2).any(|pair| pair[1].0 <= pair[0].1)
}

pub fn put_record(packed: &mut Vec<u8>, segment: &Segment) {
    packed.extend(segment.id.to_be_bytes());
    packed.extend(segment.start.to_be_bytes());
    packed.extend(segment.end.to_be_bytes());
    packed.extend((segment.buckets.len() as u16).to_be_bytes());
    for (start, end) in &segment.buckets {
        packed.extend(start.to_be_bytes());
        packed.extend(end.to_be_bytes());
    }
}

impl Sheet {
    /// 34's numbers: the first segment with a bucket outside its range, and which bucket.
    pub fn outside(&self) -> Option<[u64; 2]> {
        self.segments.iter().find_map(|segment| {
            let buckets = segment.buckets.iter().map(|(start, end)| (i64::from(*start), i64::from(*end)));
            outside((segment.start.into(), segment.end.into()), buckets).map(|index| [segment.id, index as u64])
        })
    }

    pub fn size(&self) -> usize {
        10 + self.segments.iter().map(|segment| 14 + 4 * segment.buckets.len()).sum::<usize>()
    }

    pub fn packed(&self) -> Vec<u8> {
        let mut packed = Vec::with_capacity(self.size());
        packed.extend(self.epoch.to_be_bytes());
        packed.extend((self.segments.len() as u16).to_be_bytes());
        self.segments.iter().for_each(|segment| put_record(&mut packed, segment));
        packed
    }

    /// The sheet at the front of a slot, whatever follows it.
    pub fn at_front(bytes: &[u8]) -> Option<Self> {
        let mut taker = Taker(&bytes[..bytes.len().min(SHEET_MOST)]);
        let (epoch, count) = (taker.word()?, taker.short()?);
        taker.records(count).map(|segments| Self { epoch, segments })
    }

    /// A sheet lent alone.
    pub fn whole(bytes: &[u8]) -> Option<Self> {
        Self::at_front(bytes).filter(|sheet| sheet.size() == bytes.len())
    }
}
