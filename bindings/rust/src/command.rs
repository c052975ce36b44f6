//! The outer message of a connection.

use crate::call;
use crate::error::AssignmentError;
use crate::raw;

/// What a `BaseCommand` carries. A message is a part of the command's bytes, and goes as it is to the call that takes it.
#[derive(Debug, Clone, Copy, PartialEq, Eq)]
pub enum Command<'m> {
    /// A `CommandScalableTopicAssignmentUpdate`, for
    /// [`handle_assignment_update_for`](crate::ScalableConsumerSession::handle_assignment_update_for).
    AssignmentUpdate {
        /// The message.
        message: &'m [u8],
        /// The consumer that it is for, 0 where the field is absent.
        consumer_id: u64,
    },
    /// A `CommandScalableTopicSubscribeResponse`, for
    /// [`handle_subscribe_response_for`](crate::ScalableConsumerSession::handle_subscribe_response_for).
    SubscribeResponse {
        /// The message.
        message: &'m [u8],
        /// The request that it answers, 0 where the field is absent.
        request_id: u64,
    },
    /// A `CommandWatchScalableTopicsUpdate`, for `ScalableTopicsWatch::handle_update`.
    TopicsUpdate {
        /// The message.
        message: &'m [u8],
        /// The watch that it is for, 0 where the field is absent.
        watch_id: u64,
    },
    /// The command's type is one of the three, and its message is absent or stands in several parts. Those would have to be merged, so that
    /// no part of the command's bytes is the message.
    Parts {
        /// The command's type.
        command_type: i32,
        /// How many parts: 0, or 2 and more.
        parts: usize,
    },
    /// Another command.
    Other {
        /// Its type, of any value.
        command_type: i32,
    },
}

impl<'m> Command<'m> {
    /// The type of a [`Command::SubscribeResponse`].
    pub const SUBSCRIBE_RESPONSE: i32 = 74;

    /// The type of a [`Command::AssignmentUpdate`].
    pub const ASSIGNMENT_UPDATE: i32 = 75;

    /// The type of a [`Command::TopicsUpdate`].
    pub const TOPICS_UPDATE: i32 = 77;

    /// Reads the bytes of a `BaseCommand`. Its type alone says what it carries; other fields are passed over. The carried message is not
    /// tested here: the call that it is handed to does that.
    ///
    /// # Errors
    ///
    /// [`AssignmentError::InvalidWireFormat`] (3), [`AssignmentError::WrongWireType`] (4) and, behind both, without a type,
    /// [`AssignmentError::MissingField`] (6).
    pub fn read(bytes: &'m [u8]) -> Result<Self, AssignmentError<'static>> {
        let reply = call::command(bytes);
        // A type is an int32 as a word in two's complement.
        let command_type = reply.first as i32;
        match reply.answer {
            raw::FOUND => {
                // The library's contract: the message lies inside the bytes.
                let start = reply.second as usize;
                let message = &bytes[start..start + reply.third as usize];
                let id = reply.fourth;
                Ok(match command_type {
                    Self::SUBSCRIBE_RESPONSE => Self::SubscribeResponse { message, request_id: id },
                    Self::ASSIGNMENT_UPDATE => Self::AssignmentUpdate { message, consumer_id: id },
                    _ => Self::TopicsUpdate { message, watch_id: id },
                })
            }
            raw::NO if reply.count == 2 => Ok(Self::Parts { command_type, parts: reply.second as usize }),
            raw::NO => Ok(Self::Other { command_type }),
            _ => Err(AssignmentError::from_reply(reply, "")),
        }
    }
}
