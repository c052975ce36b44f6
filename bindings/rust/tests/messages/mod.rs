//! Messages written by hand, field by field (Protocol Buffers, "Encoding"). Tests and the example share this file, and each uses a part.
#![allow(dead_code)]

pub const TOPIC: &str = "topic://a/b/c";

pub fn varint(mut value: u64) -> Vec<u8> {
    let mut bytes = Vec::new();
    while value >= 0x80 {
        bytes.push(value as u8 | 0x80);
        value >>= 7;
    }
    bytes.push(value as u8);
    bytes
}

/// A field of wire type 0.
pub fn number(field: u64, value: u64) -> Vec<u8> {
    [varint(field << 3), varint(value)].concat()
}

/// A field of wire type 2: a text or a message.
pub fn part(field: u64, bytes: impl AsRef<[u8]>) -> Vec<u8> {
    let bytes = bytes.as_ref();
    [varint(field << 3 | 2), varint(bytes.len() as u64), bytes.to_vec()].concat()
}

/// IntRange. A negative number is sent as 64 bits.
pub fn int_range(start: i32, end: i32) -> Vec<u8> {
    [number(1, start as i64 as u64), number(2, end as i64 as u64)].concat()
}

/// ScalableAssignedSegment with the topic that is given.
pub fn segment_named(id: u64, start: u32, end: u32, topic: &str, buckets: &[(i32, i32)]) -> Vec<u8> {
    let mut bytes = [number(1, id), number(2, start.into()), number(3, end.into()), part(4, topic)].concat();
    for (start, end) in buckets {
        bytes.extend(part(5, int_range(*start, *end)));
    }
    bytes
}

/// The name of a segment of TOPIC.
pub fn name(id: u64, start: u32, end: u32) -> String {
    format!("segment://a/b/c/{start:04x}-{end:04x}-{id}")
}

/// ScalableAssignedSegment of TOPIC with the topic that it ought to have.
pub fn segment(id: u64, start: u32, end: u32, buckets: &[(i32, i32)]) -> Vec<u8> {
    segment_named(id, start, end, &name(id, start, end), buckets)
}

/// ScalableConsumerAssignment.
pub fn assignment(epoch: u64, segments: &[Vec<u8>]) -> Vec<u8> {
    let mut bytes = number(1, epoch);
    for segment in segments {
        bytes.extend(part(2, segment));
    }
    bytes
}

/// CommandScalableTopicAssignmentUpdate for a consumer.
pub fn update_for(consumer: u64, epoch: u64, segments: &[Vec<u8>]) -> Vec<u8> {
    [number(1, consumer), part(2, assignment(epoch, segments))].concat()
}

/// CommandScalableTopicAssignmentUpdate for consumer 7.
pub fn update(epoch: u64, segments: &[Vec<u8>]) -> Vec<u8> {
    update_for(7, epoch, segments)
}

/// CommandScalableTopicSubscribeResponse to request 1, with an assignment.
pub fn response(epoch: u64, segments: &[Vec<u8>]) -> Vec<u8> {
    [number(1, 1), part(4, assignment(epoch, segments))].concat()
}

/// CommandScalableTopicSubscribeResponse to request 1, with an error code and perhaps a text.
pub fn rejection(code: i32, text: Option<&str>) -> Vec<u8> {
    let mut bytes = [number(1, 1), number(2, code as i64 as u64)].concat();
    bytes.extend(text.into_iter().flat_map(|text| part(3, text)));
    bytes
}

fn texts(field: u64, topics: &[&str]) -> Vec<u8> {
    topics.iter().flat_map(|topic| part(field, topic)).collect()
}

/// CommandWatchScalableTopicsUpdate with a snapshot.
pub fn snapshot(watch: u64, topics: &[&str]) -> Vec<u8> {
    [number(1, watch), part(2, texts(1, topics))].concat()
}

/// CommandWatchScalableTopicsUpdate with a diff.
pub fn diff(watch: u64, added: &[&str], removed: &[&str]) -> Vec<u8> {
    [number(1, watch), part(3, [texts(1, added), texts(2, removed)].concat())].concat()
}

/// Numbers that look random and are the same in every run (xorshift).
pub struct Random(pub u64);

impl Random {
    pub fn next(&mut self) -> u64 {
        self.0 ^= self.0 << 13;
        self.0 ^= self.0 >> 7;
        self.0 ^= self.0 << 17;
        self.0
    }

    pub fn below(&mut self, bound: usize) -> usize {
        (self.next() % bound as u64) as usize
    }

    pub fn bytes(&mut self, length: usize) -> Vec<u8> {
        (0..length).map(|_| self.next() as u8).collect()
    }
}
