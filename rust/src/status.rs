//! What IPC_STAT and a listing tell of an object, and what IPC_SET sets.

use crate::ids::Kind;
use crate::raw::{Operation, RawObject, Request};

/// The permissions of an object (struct ipc_perm of svipc(7)).
#[derive(Clone, Copy, Debug, PartialEq, Eq)]
pub struct Perm {
    /// The key, 0 for IPC_PRIVATE.
    pub key: u32,
    /// The owner.
    pub uid: u32,
    /// The owner's group.
    pub gid: u32,
    /// The creator.
    pub cuid: u32,
    /// The creator's group.
    pub cgid: u32,
    /// The permission bits.
    pub mode: u32,
}

/// What IPC_STAT of msgctl(2) tells. Times are in seconds, 0 where nothing was; a process is its client's number from 1.
#[derive(Clone, Copy, Debug, PartialEq, Eq)]
pub struct QueueStatus {
    /// The permissions.
    pub perm: Perm,
    /// The bytes of all texts.
    pub cbytes: u64,
    /// How many messages there are.
    pub qnum: u64,
    /// The most bytes that the queue may hold.
    pub qbytes: u64,
    /// The process that sent last.
    pub lspid: u32,
    /// The process that received last.
    pub lrpid: u32,
    /// When a client sent last.
    pub stime: u64,
    /// When a client received last.
    pub rtime: u64,
    /// When the queue was created or set last.
    pub ctime: u64,
}

/// What IPC_STAT of semctl(2) tells.
#[derive(Clone, Copy, Debug, PartialEq, Eq)]
pub struct SetStatus {
    /// The permissions.
    pub perm: Perm,
    /// How many semaphores there are.
    pub nsems: u64,
    /// When a semop was granted last.
    pub otime: u64,
    /// When the set was created, or it or a value was set last.
    pub ctime: u64,
}

/// What IPC_STAT of shmctl(2) tells.
#[derive(Clone, Copy, Debug, PartialEq, Eq)]
pub struct SegmentStatus {
    /// The permissions.
    pub perm: Perm,
    /// Whether it was removed, and goes with its last attachment (SHM_DEST).
    pub is_marked: bool,
    /// The size in bytes.
    pub size: u64,
    /// How many attachments there are.
    pub nattch: u64,
    /// The process that created it.
    pub cpid: u32,
    /// The process that attached or detached it last.
    pub lpid: u32,
    /// When a client attached it last.
    pub atime: u64,
    /// When a client detached it last.
    pub dtime: u64,
    /// When it was created or set last.
    pub ctime: u64,
}

/// What a line of ipcs(1) shows of each object.
#[derive(Clone, Copy, Debug, PartialEq, Eq)]
pub struct Listed {
    /// The key, 0 for IPC_PRIVATE.
    pub key: u32,
    /// The identifier.
    pub id: u32,
    /// The owner.
    pub uid: u32,
    /// The permission bits.
    pub mode: u32,
}

/// A line of ipcs(1).
#[derive(Clone, Copy, Debug, PartialEq, Eq)]
pub enum Row {
    /// Of a queue.
    Queue {
        /// What each object has.
        object: Listed,
        /// The bytes of all texts.
        cbytes: u64,
        /// How many messages there are.
        qnum: u64,
    },
    /// Of a semaphore set.
    Set {
        /// What each object has.
        object: Listed,
        /// How many semaphores there are.
        nsems: u64,
    },
    /// Of a segment.
    Segment {
        /// What each object has.
        object: Listed,
        /// Whether it goes with its last attachment (SHM_DEST).
        is_marked: bool,
        /// The size in bytes.
        size: u64,
        /// How many attachments there are.
        nattch: u64,
    },
}

/// What IPC_SET sets of a semaphore set or a segment (semctl(2), shmctl(2)).
#[derive(Clone, Copy, Debug, PartialEq, Eq)]
pub struct Owner {
    /// The owner.
    pub uid: u32,
    /// The owner's group.
    pub gid: u32,
    /// The permission bits: the low nine count.
    pub mode: u32,
}

impl RawObject {
    fn perm(&self) -> Perm {
        Perm {
            key: self.key,
            uid: self.uid,
            gid: self.gid,
            cuid: self.cuid,
            cgid: self.cgid,
            mode: self.mode,
        }
    }

    pub(crate) fn queue(&self) -> QueueStatus {
        QueueStatus {
            perm: self.perm(),
            cbytes: self.bytes,
            qnum: self.count,
            qbytes: self.qbytes,
            lspid: self.lspid,
            lrpid: self.lrpid,
            stime: self.stime,
            rtime: self.rtime,
            ctime: self.ctime,
        }
    }

    pub(crate) fn set(&self) -> SetStatus {
        SetStatus {
            perm: self.perm(),
            nsems: self.count,
            otime: self.otime,
            ctime: self.ctime,
        }
    }

    pub(crate) fn segment(&self) -> SegmentStatus {
        SegmentStatus {
            perm: self.perm(),
            is_marked: self.marked != 0,
            size: self.bytes,
            nattch: self.count,
            cpid: self.cpid,
            lpid: self.lpid,
            atime: self.atime,
            dtime: self.dtime,
            ctime: self.ctime,
        }
    }

    pub(crate) fn row(&self) -> Row {
        let object = Listed {
            key: self.key,
            id: self.id,
            uid: self.uid,
            mode: self.mode,
        };
        match self.kind {
            0 => Row::Queue {
                object,
                cbytes: self.bytes,
                qnum: self.count,
            },
            1 => Row::Set {
                object,
                nsems: self.count,
            },
            _ => Row::Segment {
                object,
                is_marked: self.marked != 0,
                size: self.bytes,
                nattch: self.count,
            },
        }
    }
}

impl Request {
    /// A request on an object.
    pub(crate) fn on(op: Operation, kind: Kind, id: u32) -> Request {
        Request {
            kind: kind as u32,
            id,
            ..Request::of(op)
        }
    }

    /// IPC_SET of an object.
    pub(crate) fn set(kind: Kind, id: u32, owner: Owner) -> Request {
        let Owner { uid, gid, mode } = owner;
        Request {
            uid,
            gid,
            mode,
            ..Request::on(Operation::IpcSet, kind, id)
        }
    }
}
