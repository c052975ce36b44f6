//! The exported functions as they are: numbers, pointers and plain structs. docs/EXPORTS.md says what each takes and answers.

/// The version of the structs' layout and of the calls' parameters.
pub const ABI: u32 = 3;

/// How many readers the replays have.
pub const READERS: usize = 8;

/// A session's record. A flag is any byte: 0 says no, all others yes; a call writes 1 or 0.
#[repr(C)]
#[derive(Clone, Copy, Debug, Default, PartialEq, Eq)]
pub struct Record {
    pub consumer_id: u64,
    pub incarnation: u64,
    /// 0 where there is no floor.
    pub epoch_floor: u64,
    pub queue_count: usize,
    /// How many pushes of the queue each reader has drained.
    pub drain_positions: [usize; READERS],
    pub has_floor: u8,
    pub registered: u8,
    pub invalidated: u8,
}

/// Which answer it is, the number of a refusal (0: none), and the values that come with it.
#[repr(C)]
#[derive(Clone, Copy, Debug, Default, PartialEq, Eq)]
pub struct Reply {
    pub answer: u8,
    pub number: u8,
    pub count: u8,
    pub first: u64,
    pub second: u64,
    pub third: u64,
    pub fourth: u64,
}

/// What an open gives: the session's record, and the answer.
#[repr(C)]
#[derive(Clone, Copy, Debug, Default, PartialEq, Eq)]
pub struct SessionReply {
    pub state: Record,
    pub reply: Reply,
}

/// A part of a message.
#[repr(C)]
#[derive(Clone, Copy, Debug, Default, PartialEq, Eq)]
pub struct Part {
    pub start: usize,
    pub length: usize,
}

pub const REFUSED: u8 = 0;
pub const ACCEPTED: u8 = 1;
pub const UNCHANGED: u8 = 2;
pub const DELTA: u8 = 3;
pub const REPLAY: u8 = 4;
pub const WRITTEN: u8 = 5;
pub const YES: u8 = 6;
pub const NO: u8 = 7;
pub const FOUND: u8 = 8;

unsafe extern "C" {
    /// Answers [`ABI`]. The symbol's name has it too: an archive of another version does not link.
    #[link_name = "cuddrewyn_abi_3"]
    pub fn cuddrewyn_abi() -> u32;
    pub fn cuddrewyn_open(
        consumer_id: u64,
        incarnation: u64,
        topic: *const u8,
        topic_len: usize,
        subscription: *const u8,
        subscription_len: usize,
        consumer_name: *const u8,
        consumer_name_len: usize,
        kind: i32,
        store: *mut u8,
        store_len: usize,
    ) -> SessionReply;
    pub fn cuddrewyn_begin(r: *mut Record, incarnation: u64) -> Reply;
    pub fn cuddrewyn_invalidate(r: *mut Record) -> Reply;
    pub fn cuddrewyn_update(
        r: *mut Record,
        store: *mut u8,
        store_len: usize,
        message: *const u8,
        message_len: usize,
        incarnation: u64,
        out: *mut u8,
        out_len: usize,
    ) -> Reply;
    pub fn cuddrewyn_response(
        r: *mut Record,
        store: *mut u8,
        store_len: usize,
        message: *const u8,
        message_len: usize,
        incarnation: u64,
    ) -> Reply;
    pub fn cuddrewyn_drain_for(
        r: *mut Record,
        store: *const u8,
        store_len: usize,
        reader: usize,
        out: *mut u8,
        out_len: usize,
    ) -> Reply;
    pub fn cuddrewyn_check(r: Record, store: *const u8, store_len: usize) -> Reply;
    pub fn cuddrewyn_save(r: Record, store: *const u8, store_len: usize, out: *mut u8, out_len: usize) -> Reply;
    pub fn cuddrewyn_restore(bytes: *const u8, bytes_len: usize, store: *mut u8, store_len: usize) -> SessionReply;
    pub fn cuddrewyn_matches_registration(
        store: *const u8,
        store_len: usize,
        topic: *const u8,
        topic_len: usize,
        subscription: *const u8,
        subscription_len: usize,
        consumer_name: *const u8,
        consumer_name_len: usize,
        kind: i32,
    ) -> Reply;
    pub fn cuddrewyn_response_text(message: *const u8, message_len: usize) -> Part;
    pub fn cuddrewyn_command(bytes: *const u8, bytes_len: usize) -> Reply;
    pub fn cuddrewyn_apply(
        assignment: *const u8,
        assignment_len: usize,
        delta: *const u8,
        delta_len: usize,
        out: *mut u8,
        out_len: usize,
    ) -> Reply;
    pub fn cuddrewyn_join(d: *const u8, d_len: usize, e: *const u8, e_len: usize, out: *mut u8, out_len: usize) -> Reply;
    pub fn cuddrewyn_to_pb(
        assignment: *const u8,
        assignment_len: usize,
        parent: *const u8,
        parent_len: usize,
        out: *mut u8,
        out_len: usize,
    ) -> Reply;
    pub fn cuddrewyn_segment_for_key(key: *const u8, key_len: usize, assignment: *const u8, assignment_len: usize)
    -> Reply;
    pub fn cuddrewyn_key_for_hash(hash: u32) -> Reply;
    pub fn cuddrewyn_key_in_segment(assignment: *const u8, assignment_len: usize, segment_id: u64) -> Reply;
    pub fn cuddrewyn_charge(segment: *const u8, segment_len: usize, seconds: u64, rate: u64, remainder: u64) -> Reply;
    pub fn cuddrewyn_churn_push(window: *mut u8, window_len: usize, count: u64) -> Reply;
    pub fn cuddrewyn_churn_clear(window: *mut u8, window_len: usize) -> Reply;
    pub fn cuddrewyn_churn_current(window: *const u8, window_len: usize) -> Reply;
    pub fn cuddrewyn_is_open(contract: *const u8, contract_len: usize, second: u64) -> Reply;
    pub fn cuddrewyn_earliest_open(contract: *const u8, contract_len: usize, second: u64) -> Reply;
    pub fn cuddrewyn_check_log(deltas: *const u8, deltas_len: usize, log: *const u8, log_len: usize) -> Reply;
    pub fn cuddrewyn_segment_topic(
        parent: *const u8,
        parent_len: usize,
        start: u32,
        end: u32,
        segment_id: u64,
        out: *mut u8,
        out_len: usize,
    ) -> Reply;
    pub fn cuddrewyn_segment_source(segment_id: u64, topic: *const u8, topic_len: usize) -> Reply;
    pub fn cuddrewyn_parent_topic(topic: *const u8, topic_len: usize, out: *mut u8, out_len: usize) -> Reply;
    pub fn cuddrewyn_range_len(start: u32, end: u32) -> Reply;
    pub fn cuddrewyn_range_contains(start: u32, end: u32, hash: u32) -> Reply;
    pub fn cuddrewyn_range_contains_range(start: u32, end: u32, other_start: u32, other_end: u32) -> Reply;
    pub fn cuddrewyn_range_is_adjacent_to(start: u32, end: u32, other_start: u32, other_end: u32) -> Reply;
    pub fn cuddrewyn_consumer_type(value: i32) -> i32;
    pub fn cuddrewyn_watch(
        watch_id: u64,
        buffer: *mut u8,
        buffer_len: usize,
        used: usize,
        message: *const u8,
        message_len: usize,
        out: *mut u8,
        out_len: usize,
    ) -> Reply;
    pub fn cuddrewyn_watch_text(message: *const u8, message_len: usize) -> Part;
}
