//! The raw structs: their layout, and that every field arrives where the archive puts it.

mod messages;

use core::mem::{align_of, offset_of, size_of};

use cuddrewyn::raw::*;
use messages::*;

#[test]
fn version() {
    // SAFETY: numbers alone.
    assert_eq!(unsafe { cuddrewyn_abi() }, ABI);
}

#[test]
fn sizes_and_offsets() {
    assert_eq!((size_of::<Record>(), align_of::<Record>()), (104, 8));
    assert_eq!(
        [offset_of!(Record, consumer_id), offset_of!(Record, incarnation), offset_of!(Record, epoch_floor)],
        [0, 8, 16]
    );
    assert_eq!([offset_of!(Record, queue_count), offset_of!(Record, drain_positions)], [24, 32]);
    assert_eq!(
        [offset_of!(Record, has_floor), offset_of!(Record, registered), offset_of!(Record, invalidated)],
        [96, 97, 98]
    );
    assert_eq!((size_of::<Reply>(), align_of::<Reply>()), (40, 8));
    assert_eq!([offset_of!(Reply, answer), offset_of!(Reply, number), offset_of!(Reply, count)], [0, 1, 2]);
    assert_eq!(
        [offset_of!(Reply, first), offset_of!(Reply, second), offset_of!(Reply, third), offset_of!(Reply, fourth)],
        [8, 16, 24, 32]
    );
    assert_eq!(
        [size_of::<SessionReply>(), offset_of!(SessionReply, state), offset_of!(SessionReply, reply)],
        [144, 0, 104]
    );
    assert_eq!([size_of::<Part>(), offset_of!(Part, start), offset_of!(Part, length)], [16, 0, 8]);
}

/// A refused begin leaves the record, whatever the bytes of its flags; an invalidation writes it: each number of its own, and each flag alone.
#[test]
fn every_field_of_a_record() {
    for (has_floor, registered, invalidated) in [(1, 0, 0), (2, 1, 0), (0x80, 0, 1), (0, 0xff, 0xff)] {
        let given = Record {
            consumer_id: 0x0101_0202_0303_0404,
            incarnation: 0x1111_2222_3333_4444,
            epoch_floor: 0x2121_2222_2323_2424,
            queue_count: 0x3131_3232_3333_3434,
            drain_positions: core::array::from_fn(|reader| 0x4141_4242_4343_4444 + reader),
            has_floor,
            registered,
            invalidated,
        };
        let mut record = given;
        // SAFETY: a record of its own.
        let reply = unsafe { cuddrewyn_begin(&mut record, 5) };
        assert_eq!(record, given);
        let expected =
            Reply { answer: REFUSED, number: 25, count: 2, first: 5, second: given.incarnation, third: 0, fourth: 0 };
        assert_eq!(reply, expected);
        // SAFETY: a record of its own.
        let reply = unsafe { cuddrewyn_invalidate(&mut record) };
        let (has_floor, epoch_floor) = if has_floor == 0 { (0, 0) } else { (1, given.epoch_floor) };
        let ended = Record {
            queue_count: 0,
            drain_positions: [0; READERS],
            registered: 0,
            invalidated: 1,
            has_floor,
            epoch_floor,
            ..given
        };
        assert_eq!((record, reply), (ended, Reply { answer: ACCEPTED, ..Reply::default() }));
    }
}

/// A session over the store, without texts but its topic.
fn open(store: &mut [u8]) -> Record {
    let (topic, topic_len, empty) = (TOPIC.as_ptr(), TOPIC.len(), [].as_ptr());
    let (store, store_len) = (store.as_mut_ptr(), store.len());
    // SAFETY: pointers and lengths of live slices; the store is exclusive.
    unsafe { cuddrewyn_open(7, 1, topic, topic_len, empty, 0, empty, 0, 0, store, store_len) }.state
}

/// A bad bucket attaches four values, two of them negative.
#[test]
fn every_value_of_a_reply() {
    let (mut store, mut out) = (vec![0; 6_144], vec![0; 3_210]);
    let opened = open(&mut store);
    let mut record = opened;
    let id = 0x0102_0304_0506_0708;
    let message = update(1, &[segment(id, 0, 9, &[(0, 1), (2, 3), (-2, i32::MIN)])]);
    let (store, store_len) = (store.as_mut_ptr(), store.len());
    let (out, out_len) = (out.as_mut_ptr(), out.len());
    let (bytes, length) = (message.as_ptr(), message.len());
    // SAFETY: pointers and lengths of live slices; record, store and output are exclusive.
    let reply = unsafe { cuddrewyn_update(&mut record, store, store_len, bytes, length, 1, out, out_len) };
    let (third, fourth) = (-2_i64 as u64, i32::MIN as i64 as u64);
    assert_eq!(reply, Reply { answer: REFUSED, number: 10, count: 4, first: id, second: 2, third, fourth });
    assert_eq!(record, opened);
}

#[test]
fn both_fields_of_a_part() {
    let message = rejection(5, Some("text"));
    // SAFETY: pointer and length of a live slice.
    let Part { start, length } = unsafe { cuddrewyn_response_text(message.as_ptr(), message.len()) };
    assert_eq!(&message[start..start + length], b"text");
    // SAFETY: pointer and length of a live slice.
    assert_eq!(unsafe { cuddrewyn_response_text(message.as_ptr(), 0) }.length, 0);
}
