//! Calls on semaphore sets.

use crate::call::{Call, calls};
use crate::flags::{GetFlags, SemFlags};
use crate::ids::{Kind, SetId};
use crate::raw::{Answer, Lists, Operation, Request};
use crate::status::{Owner, SetStatus};

/// One operation of a semop (struct sembuf of semop(2)).
#[derive(Clone, Copy, Debug, PartialEq, Eq)]
#[repr(C)]
pub struct SemOp {
    /// The number of the semaphore in its set, from 0.
    pub num: u16,
    /// What is added to its value; 0 waits until the value is 0.
    pub op: i16,
    /// `NOWAIT` and `UNDO`.
    pub flags: SemFlags,
}

fn on_semaphore(op: Operation, set: SetId, num: u32) -> Request {
    Request {
        id: set.0,
        num,
        ..Request::of(op)
    }
}

fn operations<'a>(op: Operation, set: SetId, ops: &'a [SemOp], timeout: u64) -> Call<'a, ()> {
    let lists = Lists {
        ops,
        ..Lists::default()
    };
    Call::new(
        Request {
            id: set.0,
            timeout,
            ..Request::of(op)
        },
        Answer::done,
    )
    .with_lists(lists)
}

calls! {
    /// semget(2): the set of a key, 0 for a new one (IPC_PRIVATE), with so many semaphores.
    fn semget(key: u32, nsems: u32, flags: GetFlags) -> SetId = {
        let (num, flags) = (nsems, flags.bits());
        Call::new(Request { key, num, flags, ..Request::of(Operation::SemGet) }, |answer| SetId(answer.value()))
    };

    /// semop(2): makes all operations or none. It waits while one can't be made, without `NOWAIT`.
    fn semop(set: SetId, ops: &'a [SemOp]) -> () = operations(Operation::SemOp, set, ops, 0);

    /// semtimedop of semop(2): waits for at most so many seconds of the service's clock, which goes on by calls alone.
    fn semtimedop(set: SetId, ops: &'a [SemOp], timeout: u64) -> () = operations(Operation::SemTimedOp, set, ops, timeout);

    /// GETVAL of semctl(2): a semaphore's value.
    fn getval(set: SetId, num: u32) -> u32 = Call::new(on_semaphore(Operation::GetVal, set, num), Answer::value);

    /// GETPID of semctl(2): the process of its last operation.
    fn getpid(set: SetId, num: u32) -> u32 = Call::new(on_semaphore(Operation::GetPid, set, num), Answer::value);

    /// GETNCNT of semctl(2): how many calls wait for its value to rise.
    fn getncnt(set: SetId, num: u32) -> u32 = Call::new(on_semaphore(Operation::GetNcnt, set, num), Answer::value);

    /// GETZCNT of semctl(2): how many calls wait for its value to be 0.
    fn getzcnt(set: SetId, num: u32) -> u32 = Call::new(on_semaphore(Operation::GetZcnt, set, num), Answer::value);

    /// GETALL of semctl(2): the values of all.
    fn getall(set: SetId) -> Vec<u16> =
        Call::new(Request { id: set.0, ..Request::of(Operation::GetAll) }, |answer| answer.values);

    /// SETVAL of semctl(2).
    fn setval(set: SetId, num: u32, value: i32) -> () =
        Call::new(Request { value, ..on_semaphore(Operation::SetVal, set, num) }, Answer::done);

    /// SETALL of semctl(2): a value for each.
    fn setall(set: SetId, values: &'a [u16]) -> () = {
        let lists = Lists { values, ..Lists::default() };
        Call::new(Request { id: set.0, ..Request::of(Operation::SetAll) }, Answer::done).with_lists(lists)
    };

    /// IPC_STAT of semctl(2).
    fn sem_stat(set: SetId) -> SetStatus =
        Call::new(Request::on(Operation::IpcStat, Kind::Sems, set.0), |answer| answer.object().set());

    /// IPC_SET of semctl(2).
    fn sem_set(set: SetId, owner: Owner) -> () = Call::new(Request::set(Kind::Sems, set.0, owner), Answer::done);

    /// IPC_RMID of semctl(2): the set goes, and calls that wait at it are refused as `removed`.
    fn sem_rmid(set: SetId) -> () = Call::new(Request::on(Operation::IpcRmid, Kind::Sems, set.0), Answer::done);
}
