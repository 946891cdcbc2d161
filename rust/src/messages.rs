//! Calls on message queues.

use crate::call::{Call, calls};
use crate::flags::{GetFlags, ReceiveFlags, SendFlags};
use crate::ids::{Kind, QueueId};
use crate::raw::{Answer, Lists, Operation, Request};
use crate::status::{Owner, QueueStatus};

/// A message (msgop(2)).
#[derive(Clone, Debug, PartialEq, Eq)]
pub struct Message {
    /// Its type, at least 1.
    pub mtype: i64,
    /// Its text, any bytes.
    pub text: Vec<u8>,
}

/// Which message a msgrcv asks for (msgop(2)).
#[derive(Clone, Copy, Debug, PartialEq, Eq)]
pub struct Receive {
    /// The longest text, in bytes.
    pub size: u64,
    /// 0 for the first message, above 0 for the first of this type, below 0 for the first of the lowest type that is at most
    /// its absolute value.
    pub msgtyp: i64,
    /// `NOWAIT`, `NOERROR` and `EXCEPT`.
    pub flags: ReceiveFlags,
}

impl Receive {
    /// A message by this msgtyp, with no flags.
    pub fn new(size: u64, msgtyp: i64) -> Receive {
        let flags = ReceiveFlags::NONE;
        Receive {
            size,
            msgtyp,
            flags,
        }
    }

    /// The same with these flags.
    pub fn with_flags(self, flags: ReceiveFlags) -> Receive {
        Receive { flags, ..self }
    }
}

/// What IPC_SET sets of a queue (msgctl(2)).
#[derive(Clone, Copy, Debug, PartialEq, Eq)]
pub struct QueueSettings {
    /// Its owner and permission bits.
    pub owner: Owner,
    /// The most bytes that it may hold; it stays where it isn't given.
    pub qbytes: Option<u64>,
}

impl Answer {
    fn message(self) -> Message {
        Message {
            mtype: self.reply.mtype,
            text: self.bytes,
        }
    }
}

calls! {
    /// msgget(2): the queue of a key, 0 for a new one (IPC_PRIVATE).
    fn msgget(key: u32, flags: GetFlags) -> QueueId = {
        let flags = flags.bits();
        Call::new(Request { key, flags, ..Request::of(Operation::MsgGet) }, |answer| QueueId(answer.value()))
    };

    /// msgsnd of msgop(2): sends a message of a type, at least 1, with a copy of this text. It waits while the queue is full,
    /// without `NOWAIT`.
    fn msgsnd(queue: QueueId, mtype: i64, text: &'a [u8], flags: SendFlags) -> () = {
        let (id, flags) = (queue.0, flags.bits());
        let lists = Lists { text, ..Lists::default() };
        Call::new(Request { id, mtype, flags, ..Request::of(Operation::MsgSnd) }, Answer::done).with_lists(lists)
    };

    /// msgrcv of msgop(2): receives a message. It waits while there is none of the type, without `NOWAIT`.
    fn msgrcv(queue: QueueId, asked: Receive) -> Message = {
        let Receive { size, msgtyp: mtype, flags } = asked;
        let (id, flags) = (queue.0, flags.bits());
        Call::new(Request { id, size, mtype, flags, ..Request::of(Operation::MsgRcv) }, Answer::message)
    };

    /// IPC_STAT of msgctl(2).
    fn msg_stat(queue: QueueId) -> QueueStatus =
        Call::new(Request::on(Operation::IpcStat, Kind::Queue, queue.0), |answer| answer.object().queue());

    /// IPC_SET of msgctl(2).
    fn msg_set(queue: QueueId, settings: QueueSettings) -> () = {
        let (more, size) = (settings.qbytes.is_some().into(), settings.qbytes.unwrap_or(0));
        Call::new(Request { more, size, ..Request::set(Kind::Queue, queue.0, settings.owner) }, Answer::done)
    };

    /// IPC_RMID of msgctl(2): the queue goes, and calls that wait at it are refused as `removed`.
    fn msg_rmid(queue: QueueId) -> () = Call::new(Request::on(Operation::IpcRmid, Kind::Queue, queue.0), Answer::done);
}
