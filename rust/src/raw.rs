//! The numbers of calls and replies, laid out as `include/ipcsh.h` has them, which says what each means.

use crate::semaphores::SemOp;
use std::mem::offset_of;

/// `struct ipcsh_limits`.
#[repr(C)]
pub(crate) struct RawLimits {
    pub(crate) queues: u32,
    pub(crate) sets: u32,
    pub(crate) segments: u32,
    pub(crate) msg_max: u32,
    pub(crate) msg_mnb: u32,
    pub(crate) sem_msl: u32,
    pub(crate) sem_opm: u32,
    pub(crate) shm_max: u32,
    pub(crate) first_seq: u32,
    pub(crate) journal: u32,
}

/// `struct ipcsh_client`.
#[repr(C)]
pub(crate) struct RawClient {
    pub(crate) uid: u32,
    pub(crate) gid: u32,
    pub(crate) caps: u32,
    pub(crate) ngroups: u32,
    pub(crate) groups: [u32; 32],
}

/// `enum ipcsh_op`.
#[derive(Clone, Copy)]
#[repr(u32)]
pub(crate) enum Operation {
    MsgGet,
    MsgSnd,
    MsgRcv,
    SemGet,
    SemOp,
    SemTimedOp,
    GetVal,
    GetPid,
    GetNcnt,
    GetZcnt,
    GetAll,
    SetVal,
    SetAll,
    ShmGet,
    ShmAt,
    ShmDt,
    ShmRead,
    ShmWrite,
    IpcStat,
    IpcSet,
    IpcRmid,
    Listing,
    Interrupt,
    SetCreds,
    Exit,
    InterruptThread,
    Kill,
    Assume,
    Begin,
    Fork,
    Clone,
    Name,
    Exec,
}

/// `struct ipcsh_request`.
#[derive(Default)]
#[repr(C)]
pub(crate) struct Request {
    pub(crate) clock: u64,
    pub(crate) size: u64,
    pub(crate) offset: u64,
    pub(crate) timeout: u64,
    pub(crate) mtype: i64,
    pub(crate) op: u32,
    pub(crate) kind: u32,
    pub(crate) id: u32,
    pub(crate) key: u32,
    pub(crate) flags: u32,
    pub(crate) num: u32,
    pub(crate) value: i32,
    pub(crate) uid: u32,
    pub(crate) gid: u32,
    pub(crate) mode: u32,
    pub(crate) more: u32,
    pub(crate) ruid: u32,
    pub(crate) rgid: u32,
    pub(crate) suid: u32,
    pub(crate) sgid: u32,
    pub(crate) caps: u8,
}

impl Request {
    /// A request for this call, whose numbers are 0.
    pub(crate) fn of(op: Operation) -> Request {
        Request {
            op: op as u32,
            ..Request::default()
        }
    }
}

/// `struct ipcsh_lists`.
#[derive(Clone, Copy, Default)]
pub(crate) struct Lists<'a> {
    pub(crate) text: &'a [u8],
    pub(crate) ops: &'a [SemOp],
    pub(crate) values: &'a [u16],
    pub(crate) groups: &'a [u32],
}

/// `struct ipcsh_reply`.
#[derive(Default)]
#[repr(C)]
pub(crate) struct RawReply {
    pub(crate) place: u64,
    pub(crate) mtype: i64,
    pub(crate) len: u64,
    pub(crate) turn: u32,
    pub(crate) errno: u32,
    pub(crate) rule: u32,
    pub(crate) answer: u32,
    pub(crate) value: u32,
}

/// `struct ipcsh_object`.
#[derive(Clone, Copy, Default)]
#[repr(C)]
pub(crate) struct RawObject {
    pub(crate) bytes: u64,
    pub(crate) count: u64,
    pub(crate) qbytes: u64,
    pub(crate) stime: u64,
    pub(crate) rtime: u64,
    pub(crate) otime: u64,
    pub(crate) atime: u64,
    pub(crate) dtime: u64,
    pub(crate) ctime: u64,
    pub(crate) kind: u32,
    pub(crate) id: u32,
    pub(crate) key: u32,
    pub(crate) uid: u32,
    pub(crate) gid: u32,
    pub(crate) cuid: u32,
    pub(crate) cgid: u32,
    pub(crate) mode: u32,
    pub(crate) lspid: u32,
    pub(crate) lrpid: u32,
    pub(crate) cpid: u32,
    pub(crate) lpid: u32,
    pub(crate) marked: u32,
}

/// What a call is answered: a reply and its lists, `struct ipcsh_room`.
#[derive(Default)]
pub(crate) struct Answer {
    pub(crate) reply: RawReply,
    pub(crate) bytes: Vec<u8>,
    pub(crate) values: Vec<u16>,
    pub(crate) objects: Vec<RawObject>,
}

impl Answer {
    /// Makes room for the lists that the reply tells of (`enum ipcsh_answer`).
    pub(crate) fn make_room(&mut self) {
        let len = usize::try_from(self.reply.len).expect("an answer fits in memory");
        match self.reply.answer {
            3 | 8 => self.bytes.resize(len, 0),
            6 => self.values.resize(len, 0),
            4 | 9 => self.objects.resize(len, RawObject::default()),
            _ => {}
        }
    }

    /// The object that IPC_STAT tells of.
    pub(crate) fn object(&self) -> RawObject {
        self.objects[0]
    }

    /// That there is nothing to tell.
    pub(crate) fn done(self) {}

    /// The number that was asked for.
    pub(crate) fn value(self) -> u32 {
        self.reply.value
    }
}

// The sizes of checks/c/layout.c, and where the last fields are.
const _: () = {
    assert!(size_of::<RawLimits>() == 40 && offset_of!(RawLimits, journal) == 36);
    assert!(size_of::<RawClient>() == 144 && offset_of!(RawClient, groups) == 16);
    assert!(size_of::<SemOp>() == 6 && offset_of!(SemOp, flags) == 4);
    assert!(size_of::<Request>() == 104 && offset_of!(Request, caps) == 100);
    assert!(size_of::<RawReply>() == 48 && offset_of!(RawReply, value) == 40);
    assert!(size_of::<RawObject>() == 128 && offset_of!(RawObject, marked) == 120);
};
