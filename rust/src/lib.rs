//! The calls of System V IPC within one process, served by proved code.
//!
//! [`Service::open`] opens a service and gives a [`Client`] for each process that is to call: its credentials are the
//! client's own, and no call reaches the kernel's objects. A client has a method for each call. It goes to a thread, and
//! whichever thread finds calls serves those of all, so there is no lock.
//!
//! ```
//! use ipcsh::{Creds, GetFlags, Limits, Receive, SendFlags, Service};
//!
//! let mut clients = Service::open(&Limits::default(), &[Creds::new(100, 10), Creds::new(101, 20)])?;
//! let [alice, bob] = &mut clients[..] else { unreachable!() };
//! let queue = alice.msgget(5, GetFlags::CREAT | GetFlags::mode(0o622))?;
//! bob.msgsnd(queue, 1, b"hello", SendFlags::NONE)?;
//! assert_eq!(alice.msgrcv(queue, Receive::new(80, 0))?.text, b"hello");
//! let refused = bob.msgrcv(queue, Receive::new(80, 0)).unwrap_err();
//! assert_eq!(refused.to_string(), "Permission denied (os error 13): other-bits");
//! # Ok::<(), std::io::Error>(())
//! ```
//!
//! A call that waits keeps its thread, which yields, and sleeps after a while. [`Client::post`] posts any [`Call`] and doesn't
//! wait: its client is lent to the [`Posted`] until the call has ended.

#![deny(missing_docs, unsafe_code, unsafe_op_in_unsafe_fn)]

mod call;
mod client;
mod error;
mod flags;
#[allow(unsafe_code)]
mod handle;
mod ids;
mod journal;
mod messages;
mod opening;
mod processes;
mod raw;
mod rules;
mod segments;
mod semaphores;
mod status;

pub use call::Call;
pub use client::{Advanced, Client, Place, Posted};
pub use error::{Error, OpenError};
pub use flags::{AttachFlags, Caps, GetFlags, ReceiveFlags, SemFlags, SendFlags};
pub use ids::{Attached, Kind, QueueId, SegmentId, SetId};
pub use journal::Journal;
pub use messages::{Message, QueueSettings, Receive};
pub use opening::{Creds, Limits, Service};
pub use processes::Identity;
pub use rules::Rule;
pub use semaphores::SemOp;
pub use status::{Listed, Owner, Perm, QueueStatus, Row, SegmentStatus, SetStatus};
