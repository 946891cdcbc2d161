//! The rules by which calls are refused.

use std::fmt;

macro_rules! rules {
    ($($(#[$doc:meta])* $rule:ident $name:literal)*) => {
        /// Why a call is refused: a rule of docs/PROFILE.md.
        #[derive(Clone, Copy, Debug, PartialEq, Eq, Hash)]
        #[non_exhaustive]
        pub enum Rule {
            $($(#[$doc])* $rule,)*
        }

        // In the order of their codes, from 1.
        const RULES: &[(Rule, &str)] = &[$((Rule::$rule, $name),)*];
    };
}

rules! {
    /// The caller neither owns nor created the object, and lacks CAP_SYS_ADMIN.
    NotOwner "not-owner"
    /// A `msg_qbytes` above MSGMNB is given, and the caller lacks CAP_SYS_RESOURCE.
    NeedsResource "needs-resource"
    /// A thread of the process has another effective user than the caller, which is none of its threads and lacks CAP_SYS_ADMIN.
    NotSameUser "not-same-user"
    /// The user asked for is neither the effective, the real nor the saved one, and the caller lacks CAP_SETUID.
    NotOwnUser "not-own-user"
    /// The group asked for is neither the effective, the real nor the saved one, and the caller lacks CAP_SETGID.
    NotOwnGroup "not-own-group"
    /// Supplementary groups are given, and the caller lacks CAP_SETGID.
    NeedsSetgid "needs-setgid"
    /// More than 32 supplementary groups are given.
    TooManyGroups "too-many-groups"
    /// The key has no object, and `IPC_CREAT` isn't given.
    NoKey "no-key"
    /// The client has ended.
    Ended "ended"
    /// No process has this pid, or the thread has ended.
    NoProcess "no-process"
    /// The waiting call was interrupted.
    Interrupted "interrupted"
    /// The text of the message that is chosen is longer than asked for, and `MSG_NOERROR` isn't given.
    MessageTooLong "message-too-long"
    /// More operations are given than SEMOPM.
    TooManyOperations "too-many-operations"
    /// The queue is full for the message.
    QueueFull "queue-full"
    /// An operation of semop with `IPC_NOWAIT` can't go on now.
    WouldWait "would-wait"
    /// The call has waited until its deadline, or would have to wait and its deadline isn't above the clock (semtimedop
    /// of semop(2)).
    TimedOut "timed-out"
    /// The caller is in the owner class, and the owner's permission bits lack one that is asked.
    OwnerBits "owner-bits"
    /// The caller is in the group class, and the group's permission bits lack one that is asked.
    GroupBits "group-bits"
    /// The caller is in neither class, and the others' permission bits lack one that is asked.
    OtherBits "other-bits"
    /// The attachment is read-only: it was made with `SHM_RDONLY`.
    ReadOnly "read-only"
    /// The key has an object, and both `IPC_CREAT` and `IPC_EXCL` are given.
    KeyExists "key-exists"
    /// The identifier names no object, or names none any more. For one that was removed POSIX allows EIDRM too.
    BadId "bad-id"
    /// The type of a message is below 1.
    BadType "bad-type"
    /// The text of a message is longer than MSGMAX.
    TextTooLong "text-too-long"
    /// The number of semaphores is none for a new set, above SEMMSL, or above that of the set; or as many values as the
    /// set has semaphores aren't given; or the size is 0 or above SHMMAX for a new segment, or above that of the
    /// segment.
    BadSize "bad-size"
    /// The set has no semaphore of this number.
    BadSem "bad-sem"
    /// `msg_qbytes` is given for an object that is no queue.
    BadArgument "bad-argument"
    /// No operation is given.
    NoOperations "no-operations"
    /// An operation names a semaphore that the set doesn't have.
    SemOutOfSet "sem-out-of-set"
    /// The client has no attachment of this number.
    NotAttached "not-attached"
    /// The offset and the length that are asked for together are above the size of the segment.
    OutOfSegment "out-of-segment"
    /// The client has SHMSEG attachments, 4096.
    TooManyAttached "too-many-attached"
    /// Each slot of the kind holds an object or is retired.
    NoSlot "no-slot"
    /// The value of a semaphore would rise above SEMVMX, 32767, or one that isn't 0 to SEMVMX is given.
    ValueRange "value-range"
    /// An operation with `SEM_UNDO` would take the caller's semadj of a semaphore out of -32768 to 32767.
    UndoRange "undo-range"
    /// The queue has no message of the type that is asked for.
    NoMessage "no-message"
    /// The object was removed while the call waited.
    Removed "removed"
    /// The client that is to begin hasn't ended.
    ClientInUse "client-in-use"
    /// A process has this pid.
    PidInUse "pid-in-use"
    /// The pid is 0.
    BadPid "bad-pid"
    /// There is no client of this number.
    NoClient "no-client"
}

impl Rule {
    /// The rule of a code, None for the code of none.
    pub(crate) fn from_code(code: u32) -> Option<Rule> {
        let at = (code as usize).checked_sub(1)?;
        RULES.get(at).map(|row| row.0)
    }

    /// Its name, as `other-bits`.
    pub fn name(self) -> &'static str {
        RULES[self as usize].1
    }
}

impl fmt::Display for Rule {
    fn fmt(&self, f: &mut fmt::Formatter<'_>) -> fmt::Result {
        f.pad(self.name())
    }
}
