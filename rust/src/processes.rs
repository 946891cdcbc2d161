//! Calls on processes, and the listing.

use crate::call::{Call, calls};
use crate::flags::Caps;
use crate::ids::Kind;
use crate::raw::{Answer, Lists, Operation, RawObject, Request};
use crate::status::Row;

impl Answer {
    fn rows(self) -> Vec<Row> {
        self.objects.iter().map(RawObject::row).collect()
    }
}

/// Credentials as a call hands them in.
#[derive(Clone, Copy, Debug, Default, PartialEq, Eq)]
pub struct Identity<'a> {
    /// The effective user.
    pub uid: u32,
    /// The effective group.
    pub gid: u32,
    /// The real user.
    pub ruid: u32,
    /// The real group.
    pub rgid: u32,
    /// The saved user.
    pub suid: u32,
    /// The saved group.
    pub sgid: u32,
    /// The supplementary groups, 32 at most.
    pub groups: &'a [u32],
    /// The capabilities.
    pub caps: Caps,
}

impl<'a> Identity<'a> {
    fn call(self, op: Operation, pid: u32) -> Call<'a, ()> {
        let request = Request {
            id: pid,
            uid: self.uid,
            gid: self.gid,
            ruid: self.ruid,
            rgid: self.rgid,
            suid: self.suid,
            sgid: self.sgid,
            caps: self.caps.bits() as u8,
            ..Request::of(op)
        };
        let lists = Lists {
            groups: self.groups,
            ..Lists::default()
        };
        Call::new(request, Answer::done).with_lists(lists)
    }
}

calls! {
    /// ipcs(1): the objects of a kind.
    fn list(kind: Kind) -> Vec<Row> = Call::new(Request::on(Operation::Listing, kind, 0), Answer::rows);

    /// Ends the waiting calls of a process's threads, as signals would (EINTR of msgop(2) and semop(2)).
    fn interrupt(pid: u32) -> () = Call::new(Request { id: pid, ..Request::of(Operation::Interrupt) }, Answer::done);

    /// Ends the waiting call of one client, as a signal to its thread would.
    fn interrupt_thread(client: u32) -> () = Call::new(Request { id: client, ..Request::of(Operation::InterruptThread) }, Answer::done);

    /// kill(2) with SIGKILL: the threads of the process end, and so does it.
    fn kill(pid: u32) -> () = Call::new(Request { id: pid, ..Request::of(Operation::Kill) }, Answer::done);

    /// seteuid(2), setegid(2) and setgroups(2) in one; the supplementary groups stay where none are given.
    fn setcreds(uid: u32, gid: u32, groups: Option<&'a [u32]>) -> () = {
        let more = groups.is_some().into();
        let lists = Lists { groups: groups.unwrap_or_default(), ..Lists::default() };
        Call::new(Request { uid, gid, more, ..Request::of(Operation::SetCreds) }, Answer::done).with_lists(lists)
    };

    /// The client has these credentials from now on.
    fn assume(identity: Identity<'a>) -> () = identity.call(Operation::Assume, 0);

    /// The client, which has ended, begins anew as the only thread of a new process of this pid.
    fn begin(pid: u32, identity: Identity<'a>) -> () = identity.call(Operation::Begin, pid);

    /// fork(2): another client, which has ended, becomes the only thread of a new process of this pid, with copies of the
    /// caller's attachments.
    fn fork(child: u32, pid: u32) -> () = Call::new(Request { num: child, id: pid, ..Request::of(Operation::Fork) }, Answer::done);

    /// clone(2): another client, which has ended, becomes one more thread of the caller's process.
    fn clone_into(child: u32) -> () = Call::new(Request { num: child, ..Request::of(Operation::Clone) }, Answer::done);

    /// The caller's process has this pid from now on.
    fn name(pid: u32) -> () = Call::new(Request { id: pid, ..Request::of(Operation::Name) }, Answer::done);

    /// execve(2): the other threads of the process end, and its attachments go.
    fn exec() -> () = Call::new(Request::of(Operation::Exec), Answer::done);

    /// _exit(2): the client's thread ends, and its later calls but [`begin`](crate::Client::begin) are refused as `ended`. With the last
    /// thread of its process what their operations with `SemFlags::UNDO` did is undone, and the attachments go.
    fn exit() -> () = Call::new(Request::of(Operation::Exit), Answer::done);
}
