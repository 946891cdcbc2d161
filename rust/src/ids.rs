//! What names an object and an attachment: numbers that can't be taken for one another.

use std::fmt;

macro_rules! numbers {
    ($($(#[$doc:meta])* $name:ident)*) => {$(
        $(#[$doc])*
        #[derive(Clone, Copy, Debug, PartialEq, Eq, Hash)]
        pub struct $name(pub u32);

        impl fmt::Display for $name {
            fn fmt(&self, f: &mut fmt::Formatter<'_>) -> fmt::Result {
                self.0.fmt(f)
            }
        }
    )*};
}

numbers! {
    /// The identifier of a message queue (msgget(2)), at most 2147483647.
    QueueId
    /// The identifier of a semaphore set (semget(2)), at most 2147483647.
    SetId
    /// The identifier of a shared memory segment (shmget(2)), at most 2147483647.
    SegmentId
    /// The number under which a client has attached a segment, below 4096. It is the client's own, and stands for the
    /// address of shmat (shmop(2)).
    Attached
}

/// A kind of objects.
#[derive(Clone, Copy, Debug, PartialEq, Eq, Hash)]
pub enum Kind {
    /// Message queues.
    Queue,
    /// Semaphore sets.
    Sems,
    /// Shared memory segments.
    Segment,
}
