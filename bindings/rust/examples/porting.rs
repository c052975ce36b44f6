//! The station of docs/PORTING.md after: over this crate.
//!
//! It reads a log of calls and prints what the uploader has to do, what is refused and what is held.

use std::error::Error;

use cuddrewyn::owned::{AssignmentDelta, AssignmentError, ScalableConsumerSession};
use cuddrewyn::owned::{ControllerIncarnation, ScalableConsumerType};

type Done = Result<(), Box<dyn Error>>;

/// What the uploader does with a change.
fn upload(delta: &AssignmentDelta) {
    println!("epoch {}", delta.layout_epoch);
    for id in &delta.lost {
        println!("  detach segment {id}");
    }
    for segment in &delta.gained {
        println!("  attach {}", segment.segment_topic());
        for bucket in segment.bucket_ranges() {
            println!("    bucket {} to {}", bucket.start(), bucket.end());
        }
    }
}

/// The answer to the registration.
fn respond(session: &mut ScalableConsumerSession, link: ControllerIncarnation, message: &[u8]) -> Done {
    let baseline = session.handle_subscribe_response_for(link, message)?;
    println!("registered with {:?}", baseline.segment_topics());
    Ok(())
}

/// A push of the controller.
fn update(session: &mut ScalableConsumerSession, link: ControllerIncarnation, message: &[u8]) -> Done {
    match session.handle_assignment_update_for(link, message)? {
        Some(delta) => upload(&delta),
        None => println!("nothing to do"),
    }
    Ok(())
}

/// One line of the log.
fn call(session: &mut ScalableConsumerSession, words: &[&str]) -> Done {
    match words {
        ["response", link, message] => respond(session, incarnation(link)?, &bytes(message)?)?,
        ["update", link, message] => update(session, incarnation(link)?, &bytes(message)?)?,
        ["drain", _] => session.take_replayed_updates().iter().for_each(|replay| upload(&replay.delta)),
        ["begin", link] => session.begin_incarnation(incarnation(link)?)?,
        ["invalidate"] => session.invalidate_authority(),
        _ => return Err("no such call".into()),
    }
    Ok(())
}

fn open(words: &[&str]) -> Result<ScalableConsumerSession, Box<dyn Error>> {
    let ["open", id, link, topic, subscription, name, _] = words else { return Err("no session".into()) };
    let [topic, subscription, name] = [topic, subscription, name].map(|text| text.to_string());
    let (id, link, kind) = (id.parse()?, incarnation(link)?, ScalableConsumerType::Stream);
    Ok(ScalableConsumerSession::new(id, topic, subscription, name, kind, link)?)
}

/// What the operator reads of a refusal.
fn refused(error: &(dyn Error + 'static)) {
    match error.downcast_ref() {
        Some(AssignmentError::AttachmentMismatch { segment_id, .. }) => println!("refused: segment {segment_id}, its name"),
        Some(AssignmentError::SegmentTopic(_)) => println!("refused: the topic has no segments"),
        _ => println!("refused: {error}"),
    }
}

fn incarnation(word: &str) -> Result<ControllerIncarnation, Box<dyn Error>> {
    Ok(ControllerIncarnation(word.parse()?))
}

fn bytes(hex: &str) -> Result<Vec<u8>, Box<dyn Error>> {
    let digits = hex.strip_prefix("0x").ok_or("no bytes")?;
    (0..digits.len()).step_by(2).map(|at| Ok(u8::from_str_radix(&digits[at..at + 2], 16)?)).collect()
}

fn main() -> Done {
    let log = std::io::read_to_string(std::io::stdin())?;
    let mut lines = log.lines().filter(|line| !line.starts_with('#')).map(|line| line.split(' ').collect::<Vec<_>>());
    let mut session = open(&lines.next().ok_or("an empty log")?)?;
    for words in lines {
        println!("{}", words[0]);
        if words[0] == "open" {
            session = open(&words)?;
        } else if let Err(error) = call(&mut session, &words) {
            refused(&*error);
        }
        println!("floor {:?}, held {:?}", session.epoch_floor(), session.assignment());
    }
    Ok(())
}
