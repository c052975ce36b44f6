//! A short session with an unpacked release: open, the response, a push that gives a delta. session.c prints the same.

use cuddrewyn::{
    AssignmentError, ControllerIncarnation, MIN_OUTPUT, MIN_STORE, ScalableConsumerSession, ScalableConsumerType, VERSION,
    raw,
};

const TOPIC: &str = "topic://a/b/c";
/// Request 1, an empty list at epoch 2.
const RESPONSE: &[u8] = b"\x08\x01\x22\x02\x08\x02";
/// Consumer 7, epoch 3, segment 0 from 0000 to 7fff.
const PUSH: &[u8] = b"\x08\x07\x12\x29\x08\x03\x12\x25\x08\x00\x10\x00\x18\xff\xff\x01\x22\x1bsegment://a/b/c/0000-7fff-0";

fn main() -> Result<(), AssignmentError<'static>> {
    println!("cuddrewyn {VERSION}, calls of version {}", raw::ABI);
    let (mut store, mut out, mut name) = ([0; MIN_STORE], [0; MIN_OUTPUT], [0; 64]);
    let (kind, link) = (ScalableConsumerType::Stream, ControllerIncarnation(1));
    let mut session = ScalableConsumerSession::new(7, TOPIC, "uplink", "station-1", kind, link, &mut store)?;
    println!("open: accepted");
    println!("response: a list at epoch {}", session.handle_subscribe_response(RESPONSE)?.layout_epoch());
    let delta = session.handle_assignment_update(PUSH, &mut out)?.expect("a list that differs");
    let (lost, gained) = (delta.lost().len(), delta.gained().len());
    println!("update: epoch {}, {lost} lost, {gained} gained", delta.layout_epoch());
    for segment in delta.gained() {
        println!("  attach {}", segment.segment_topic(TOPIC, &mut name)?);
    }
    Ok(())
}
