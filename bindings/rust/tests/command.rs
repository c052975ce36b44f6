//! The outer message: what it carries, and where.

use cuddrewyn::{AssignmentError, Command};

/// A field of wire type 2 with a number up to 2,047 and fewer than 128 bytes.
fn part(number: u16, bytes: &[u8]) -> Vec<u8> {
    let key = number * 8 + 2;
    let mut field = vec![(key % 128) as u8 | 0x80, (key / 128) as u8, bytes.len() as u8];
    field.extend_from_slice(bytes);
    field
}

fn command(fields: &[&[u8]]) -> Vec<u8> {
    fields.concat()
}

#[test]
fn carries_each_of_the_three() {
    let message = [0x08, 0x07, 0x12, 0x02, 0x08, 0x03];
    let update = command(&[&[0x08, 75], &part(75, &message)]);
    assert_eq!(Command::read(&update), Ok(Command::AssignmentUpdate { message: &message, consumer_id: 7 }));
    let response = command(&[&part(74, &message), &[0x08, 74]]);
    assert_eq!(Command::read(&response), Ok(Command::SubscribeResponse { message: &message, request_id: 7 }));
    let watch = command(&[&[0x08, 77], &part(2, b"?"), &part(77, &message)]);
    assert_eq!(Command::read(&watch), Ok(Command::TopicsUpdate { message: &message, watch_id: 7 }));
}

#[test]
fn is_a_part_of_the_bytes() {
    let bytes = command(&[&[0x08, 75], &part(75, &[0x08, 0x07])]);
    let Ok(Command::AssignmentUpdate { message, .. }) = Command::read(&bytes) else { panic!("no update") };
    assert_eq!(message.as_ptr(), bytes[5..].as_ptr());
}

#[test]
fn goes_by_the_last_type_alone() {
    let bytes = command(&[&[0x08, 74], &part(74, &[0x08, 1]), &part(75, &[0x08, 2]), &[0x08, 75]]);
    assert_eq!(Command::read(&bytes), Ok(Command::AssignmentUpdate { message: &[0x08, 2], consumer_id: 2 }));
}

#[test]
fn does_not_test_the_message() {
    let bytes = command(&[&[0x08, 75], &part(75, &[0x00])]);
    assert_eq!(Command::read(&bytes), Ok(Command::AssignmentUpdate { message: &[0x00], consumer_id: 0 }));
}

#[test]
fn tells_absent_and_merged_messages() {
    let absent = command(&[&[0x08, 77], &part(75, &[])]);
    assert_eq!(Command::read(&absent), Ok(Command::Parts { command_type: Command::TOPICS_UPDATE, parts: 0 }));
    let merged = command(&[&[0x08, 75], &part(75, &[0x08, 7]), &part(75, &[])]);
    assert_eq!(Command::read(&merged), Ok(Command::Parts { command_type: Command::ASSIGNMENT_UPDATE, parts: 2 }));
}

#[test]
fn tells_other_types() {
    assert_eq!(Command::read(&[0x08, 2]), Ok(Command::Other { command_type: 2 }));
    let negative = [&[0x08][..], &[0xff; 9], &[0x01]].concat();
    assert_eq!(Command::read(&negative), Ok(Command::Other { command_type: -1 }));
}

#[test]
fn refuses_the_shell() {
    assert_eq!(Command::read(&[]), Err(AssignmentError::MissingField));
    assert_eq!(Command::read(&[0x08, 75, 0x13]), Err(AssignmentError::InvalidWireFormat));
    assert_eq!(Command::read(&[0x08, 75, 0x12, 0x01]), Err(AssignmentError::InvalidWireFormat));
    assert_eq!(Command::read(&[0x0a, 0x00]), Err(AssignmentError::WrongWireType));
    assert_eq!(Command::read(&[0xd8, 0x04, 0x00]), Err(AssignmentError::WrongWireType));
}
