//! The topics watch that owns its set.

use alloc::string::String;
use alloc::vec;
use alloc::vec::Vec;
use core::fmt;

use crate::owned::TopicsWatchError;
use crate::watch::{ScalableTopicsWatch as Lent, Topics};

/// What a diff has before its two lists, the most of any change.
const HEAD: usize = 5;

/// What an update of the watch changed.
#[derive(Debug, Clone, PartialEq, Eq)]
pub enum TopicsChange {
    /// The broker replaced the whole set.
    Snapshot {
        /// The set, rising.
        topics: Vec<String>,
    },
    /// The broker changed the set.
    Diff {
        /// Topics that entered the set, rising.
        added: Vec<String>,
        /// Topics that were in the set and were taken out, rising. One that was put back is in both.
        removed: Vec<String>,
    },
}

impl crate::TopicsChange<'_> {
    /// The same with its own texts.
    #[must_use]
    pub fn into_owned(self) -> TopicsChange {
        match self {
            Self::Snapshot { topics } => TopicsChange::Snapshot { topics: texts(topics) },
            Self::Diff { added, removed } => TopicsChange::Diff { added: texts(added), removed: texts(removed) },
        }
    }
}

fn texts(topics: Topics<'_>) -> Vec<String> {
    topics.map(String::from).collect()
}

/// A watch over the topics of a namespace: the set of those that match, in a buffer that grows with it.
///
/// A refusal leaves the set as it was.
#[derive(Clone)]
pub struct ScalableTopicsWatch {
    watch_id: u64,
    namespace: String,
    /// The set, packed, and nothing behind it.
    set: Vec<u8>,
}

impl ScalableTopicsWatch {
    /// An empty watch.
    #[must_use]
    pub fn new(watch_id: u64, namespace: impl Into<String>) -> Self {
        Self { watch_id, namespace: namespace.into(), set: Vec::new() }
    }

    /// The watch with the set that [`Self::as_bytes`] gave.
    ///
    /// # Errors
    ///
    /// [`TopicsWatchError::MalformedSet`] (30) where the bytes are no set. The proved library makes this test.
    pub fn from_bytes(watch_id: u64, namespace: impl Into<String>, mut set: Vec<u8>) -> Result<Self, TopicsWatchError> {
        let used = set.len();
        Lent::from_parts(watch_id, "", &mut set, used)?;
        Ok(Self { watch_id, namespace: namespace.into(), set })
    }

    /// The set's bytes, to keep.
    #[must_use]
    pub fn as_bytes(&self) -> &[u8] {
        &self.set
    }

    /// The watch's id.
    #[must_use]
    pub const fn watch_id(&self) -> u64 {
        self.watch_id
    }

    /// The namespace that is watched.
    #[must_use]
    pub fn namespace(&self) -> &str {
        &self.namespace
    }

    /// The topics that match now, rising.
    #[must_use]
    pub fn topics(&self) -> Vec<String> {
        texts(self.topics_view())
    }

    /// The topics that match now, as they stand in the set.
    #[must_use]
    pub fn topics_view(&self) -> Topics<'_> {
        Topics::of(&self.set)
    }

    /// Takes an update (`CommandWatchScalableTopicsUpdate`): a snapshot replaces the set, a diff takes out, then puts in.
    ///
    /// # Errors
    ///
    /// As [`handle_update`](crate::ScalableTopicsWatch::handle_update) over a lent buffer; 31 only for a topic of more than 65,535 bytes, and
    /// never 21. The set is then as it was.
    pub fn handle_update(&mut self, message: &[u8]) -> Result<TopicsChange, TopicsWatchError> {
        let before = self.set.len();
        // A topic has at least two bytes before its text in a message, and two in a set or a list: neither grows by more than the message has.
        // The output is twice as long, so that a diff is written without being measured first.
        self.set.resize(before + message.len(), 0);
        let mut out = vec![0; HEAD + 2 * message.len()];
        let mut lent = Lent::over(self.watch_id, &mut self.set, before);
        let change = lent.handle_update(message, &mut out).map(crate::TopicsChange::into_owned).map_err(Into::into);
        let (_, used) = lent.into_parts();
        self.set.truncate(used);
        change
    }
}

impl fmt::Debug for ScalableTopicsWatch {
    fn fmt(&self, f: &mut fmt::Formatter<'_>) -> fmt::Result {
        f.debug_struct("ScalableTopicsWatch")
            .field("watch_id", &self.watch_id)
            .field("namespace", &self.namespace)
            .field("topics", &self.topics_view())
            .finish()
    }
}
