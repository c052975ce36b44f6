//! A short pass of a station: it registers, catches up on what waited, follows two pushes, refuses an old one, and reconnects.
//!
//! A real station reads the messages from its connection; here they are written by hand.

#[path = "../tests/messages/mod.rs"]
mod messages;

use cuddrewyn::{
    AssignmentDelta, AssignmentError, ControllerIncarnation, MIN_OUTPUT, ScalableConsumerSession, ScalableConsumerType,
    store_len,
};
use messages::{TOPIC, rejection, response, segment, update};

/// What the uploader does with a delta.
fn upload(delta: AssignmentDelta<'_>) -> Result<(), AssignmentError<'static>> {
    println!("epoch {}: {} lost, {} gained", delta.layout_epoch(), delta.lost().len(), delta.gained().len());
    for id in delta.lost() {
        println!("  detach segment {id}");
    }
    for segment in delta.gained() {
        let mut name = [0; 64];
        println!("  attach {}", segment.segment_topic(TOPIC, &mut name)?);
        for bucket in segment.bucket_ranges() {
            println!("    bucket {} to {}", bucket.start(), bucket.end());
        }
    }
    Ok(())
}

/// Takes a push, and says so where it is refused.
fn follow(session: &mut ScalableConsumerSession<'_>, push: &[u8], out: &mut [u8]) -> Result<(), AssignmentError<'static>> {
    match session.handle_assignment_update(push, out) {
        Ok(Some(delta)) => upload(delta),
        Ok(None) => {
            println!("nothing to do yet");
            Ok(())
        }
        Err(refusal) => {
            println!("refused with {}: {refusal}", refusal.number());
            Ok(())
        }
    }
}

/// Takes the answer to the registration, then what waited for it.
fn register(
    session: &mut ScalableConsumerSession<'_>,
    message: &[u8],
    out: &mut [u8],
) -> Result<(), AssignmentError<'static>> {
    match session.handle_subscribe_response(message) {
        Ok(baseline) => {
            println!("registered at epoch {} with {} segments", baseline.layout_epoch(), baseline.segments().len())
        }
        Err(refusal) => {
            println!("refused with {}: {refusal}", refusal.number());
            return Ok(());
        }
    }
    while let Some(replay) = session.take_replayed_update(out)? {
        upload(replay.delta)?;
    }
    Ok(())
}

fn main() -> Result<(), AssignmentError<'static>> {
    let mut store = [0; store_len(16)];
    let mut out = [0; MIN_OUTPUT];
    let (kind, link) = (ScalableConsumerType::Stream, ControllerIncarnation(1));
    let mut session = ScalableConsumerSession::new(7, TOPIC, "uplink", "station-1", kind, link, &mut store)?;

    let (low, high) = (segment(0, 0, 0x7fff, &[]), segment(1, 0x8000, 0xffff, &[]));
    let shared = segment(1, 0x8000, 0xffff, &[(0x8000, 0xbfff)]);
    follow(&mut session, &update(3, std::slice::from_ref(&low)), &mut out)?;
    register(&mut session, &response(2, &[]), &mut out)?;
    follow(&mut session, &update(4, &[low, high]), &mut out)?;
    follow(&mut session, &update(5, &[shared]), &mut out)?;
    follow(&mut session, &update(4, &[]), &mut out)?;

    session.begin_incarnation(ControllerIncarnation(2))?;
    register(&mut session, &rejection(22, Some("topic is being moved")), &mut out)?;
    register(&mut session, &response(6, &[]), &mut out)?;
    println!("floor {:?}, held {:?}", session.epoch_floor(), session.assignment());
    Ok(())
}
