//! Calls on shared memory segments.

use crate::call::{Call, calls};
use crate::flags::{AttachFlags, GetFlags};
use crate::ids::{Attached, Kind, SegmentId};
use crate::raw::{Answer, Lists, Operation, Request};
use crate::status::{Owner, SegmentStatus};

calls! {
    /// shmget(2): the segment of a key, 0 for a new one (IPC_PRIVATE), of so many bytes.
    fn shmget(key: u32, size: u64, flags: GetFlags) -> SegmentId = {
        let flags = flags.bits();
        Call::new(Request { key, size, flags, ..Request::of(Operation::ShmGet) }, |answer| SegmentId(answer.value()))
    };

    /// shmat of shmop(2): attaches a segment under a number of the client's own, by which its bytes are read and written.
    fn shmat(segment: SegmentId, flags: AttachFlags) -> Attached = {
        let (id, flags) = (segment.0, flags.bits());
        Call::new(Request { id, flags, ..Request::of(Operation::ShmAt) }, |answer| Attached(answer.value()))
    };

    /// shmdt of shmop(2).
    fn shmdt(attached: Attached) -> () =
        Call::new(Request { id: attached.0, ..Request::of(Operation::ShmDt) }, Answer::done);

    /// Reads `len` bytes of an attached segment. It stands for a read of mapped memory.
    fn shm_read(attached: Attached, offset: u64, len: u64) -> Vec<u8> = {
        let (id, size) = (attached.0, len);
        Call::new(Request { id, offset, size, ..Request::of(Operation::ShmRead) }, |answer| answer.bytes)
    };

    /// Writes bytes to an attached segment. It stands for a write to mapped memory.
    fn shm_write(attached: Attached, offset: u64, bytes: &'a [u8]) -> () = {
        let id = attached.0;
        let lists = Lists { text: bytes, ..Lists::default() };
        Call::new(Request { id, offset, ..Request::of(Operation::ShmWrite) }, Answer::done).with_lists(lists)
    };

    /// IPC_STAT of shmctl(2).
    fn shm_stat(segment: SegmentId) -> SegmentStatus =
        Call::new(Request::on(Operation::IpcStat, Kind::Segment, segment.0), |answer| answer.object().segment());

    /// IPC_SET of shmctl(2).
    fn shm_set(segment: SegmentId, owner: Owner) -> () =
        Call::new(Request::set(Kind::Segment, segment.0, owner), Answer::done);

    /// IPC_RMID of shmctl(2): the segment goes with its last attachment.
    fn shm_rmid(segment: SegmentId) -> () =
        Call::new(Request::on(Operation::IpcRmid, Kind::Segment, segment.0), Answer::done);
}
