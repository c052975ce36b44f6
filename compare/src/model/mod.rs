//! What 01 and 02 say, read independently of the port: its reader of messages, its packed forms, its store and its calls. Slow and plain.
//!
//! Refusals 9 to 14 of a message's segments are the Rust's (`oracle::intake`), which is told of no parent where `names::is_parent` finds none,
//! and of no segment from one with a bucket outside its range on (34); the rest of a call's answer is reckoned here.
pub mod attach_log;
pub mod charge;
pub mod churn;
pub mod command;
pub mod delta;
pub mod hours;
pub mod identity;
pub mod lookup;
pub mod messages;
pub mod names;
pub mod session;
pub mod sheet;
pub mod test_key;
pub mod watch;
pub mod wire;
