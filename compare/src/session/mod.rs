//! Sessions: ours, the model's prediction and the Rust's session, call by call.
pub mod damaged;
pub mod directed;
pub mod limits;
pub mod orders;
pub mod script;
pub mod stage;
pub mod twin;
pub mod walk;
pub mod world;
