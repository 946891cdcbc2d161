//! The calls on processes and threads, each with its refusals.

use ipcsh::{AttachFlags, Attached, Caps, Client, Creds, Error, GetFlags, Identity, Limits};
use ipcsh::{Rule, SegmentId, SemFlags, SemOp, Service, SetId};
use std::io::Read;
use std::thread;

/// The clients' numbers.
const ALICE: u32 = 0;
const BOB: u32 = 1;
const KID: u32 = 2;
const TOM: u32 = 3;

const NOBODY: Identity = Identity {
    uid: 500,
    gid: 50,
    ruid: 500,
    rgid: 50,
    suid: 500,
    sgid: 50,
    groups: &[],
    caps: Caps::NONE,
};

/// alice, bob, kid, tom and root, at first the processes 1 to 5; kid is of bob's user.
fn open() -> [Client; 5] {
    let users = [
        Creds::new(100, 10),
        Creds::new(200, 20),
        Creds::new(200, 20),
        Creds::new(300, 30),
        Creds::new(900, 90).with_caps(Caps::SYS_ADMIN),
    ];
    let clients = Service::open(&Limits::default(), &users).unwrap();
    <[Client; 5]>::try_from(clients).unwrap()
}

/// The same, and kid and tom have ended, so that others may begin in them.
fn open_with_two_ended() -> [Client; 5] {
    let mut clients = open();
    clients[KID as usize].exit().unwrap();
    clients[TOM as usize].exit().unwrap();
    clients
}

fn rule(result: Result<(), Error>) -> Option<Rule> {
    result.unwrap_err().rule()
}

fn new_set(client: &mut Client) -> SetId {
    client.semget(0, 2, GetFlags::mode(0o666)).unwrap()
}

fn new_segment(client: &mut Client) -> (SegmentId, Attached) {
    let segment = client.shmget(0, 4, GetFlags::mode(0o600)).unwrap();
    let attached = client.shmat(segment, AttachFlags::NONE).unwrap();
    (segment, attached)
}

/// Adds to semaphore 0, which is to be undone as the process ends.
fn add(client: &mut Client, set: SetId, op: i16) {
    let flags = SemFlags::UNDO;
    client.semop(set, &[SemOp { num: 0, op, flags }]).unwrap();
}

/// Its thread waits for semaphore 1 until its call ends, and gives the client back.
fn start_waiting(mut client: Client, set: SetId) -> thread::JoinHandle<(Client, Error)> {
    let (op, flags) = (-1, SemFlags::NONE);
    thread::spawn(move || {
        let error = client.semop(set, &[SemOp { num: 1, op, flags }]);
        (client, error.unwrap_err())
    })
}

/// So many calls wait for semaphore 1.
fn await_waiting(root: &mut Client, set: SetId, count: u32) {
    while root.getncnt(set, 1).unwrap() < count {
        thread::yield_now();
    }
}

#[test]
fn a_client_that_has_ended_may_only_begin() {
    let [_, _, mut kid, _, _] = open_with_two_ended();
    for refused in [
        kid.fork(TOM, 0),
        kid.clone_into(TOM),
        kid.exec(),
        kid.kill(1),
        kid.interrupt(1),
        kid.interrupt_thread(99),
        kid.name(0),
        kid.assume(NOBODY),
        kid.exit(),
    ] {
        assert_eq!(rule(refused), Some(Rule::Ended));
    }
    kid.begin(9, NOBODY).unwrap();
    assert_eq!(rule(kid.begin(10, NOBODY)), Some(Rule::ClientInUse));
    kid.exec().unwrap();
}

#[test]
fn refusals_of_what_makes_a_thread() {
    let [mut alice, _, mut kid, _, _] = open_with_two_ended();
    let crowded = Identity {
        groups: &[7; 33],
        ..NOBODY
    };
    assert_eq!(rule(alice.begin(0, NOBODY)), Some(Rule::ClientInUse));
    assert_eq!(rule(kid.begin(0, crowded)), Some(Rule::BadPid));
    assert_eq!(rule(kid.begin(1, crowded)), Some(Rule::TooManyGroups));
    assert_eq!(rule(kid.begin(1, NOBODY)), Some(Rule::PidInUse));
    assert_eq!(rule(alice.fork(99, 0)), Some(Rule::BadPid));
    assert_eq!(rule(alice.fork(99, 2)), Some(Rule::NoClient));
    assert_eq!(rule(alice.fork(BOB, 2)), Some(Rule::ClientInUse));
    assert_eq!(rule(alice.fork(KID, 2)), Some(Rule::PidInUse));
    assert_eq!(rule(alice.clone_into(99)), Some(Rule::NoClient));
    assert_eq!(rule(alice.clone_into(ALICE)), Some(Rule::ClientInUse));
    // None of them has taken kid.
    let error = kid.exit().unwrap_err();
    assert_eq!((error.errno(), error.rule()), (3, Some(Rule::Ended)));
    alice.fork(KID, u32::MAX).unwrap();
    kid.exit().unwrap();
}

#[test]
fn whom_a_client_may_signal() {
    let [mut alice, mut bob, mut kid, mut tom, mut root] = open();
    tom.exit().unwrap();
    assert_eq!(rule(alice.kill(0)), Some(Rule::NoProcess));
    assert_eq!(rule(alice.kill(2)), Some(Rule::NotSameUser));
    assert_eq!(rule(alice.interrupt(4)), Some(Rule::NoProcess));
    assert_eq!(rule(alice.interrupt(2)), Some(Rule::NotSameUser));
    assert_eq!(rule(alice.interrupt_thread(99)), Some(Rule::NoClient));
    assert_eq!(rule(alice.interrupt_thread(TOM)), Some(Rule::NoProcess));
    assert_eq!(rule(alice.interrupt_thread(BOB)), Some(Rule::NotSameUser));
    kid.interrupt(2).unwrap();
    // One thread of another user is enough.
    bob.clone_into(TOM).unwrap();
    tom.assume(NOBODY).unwrap();
    assert_eq!(rule(kid.interrupt(2)), Some(Rule::NotSameUser));
    assert_eq!(rule(kid.kill(2)), Some(Rule::NotSameUser));
    kid.interrupt_thread(BOB).unwrap();
    tom.interrupt(2).unwrap();
    root.kill(2).unwrap();
    assert_eq!(rule(tom.exit()), Some(Rule::Ended));
    // Its own process may kill itself.
    alice.kill(1).unwrap();
    assert_eq!(rule(alice.kill(1)), Some(Rule::Ended));
}

#[test]
fn a_fork_has_the_attachments_and_no_semadj() {
    let [mut alice, _, mut kid, _, _] = open_with_two_ended();
    let set = new_set(&mut alice);
    let (segment, write) = new_segment(&mut alice);
    let read = alice.shmat(segment, AttachFlags::RDONLY).unwrap();
    add(&mut alice, set, 5);
    alice.set_time(7);
    alice.fork(KID, 9).unwrap();
    let status = alice.shm_stat(segment).unwrap();
    assert_eq!((status.nattch, status.lpid, status.atime), (4, 1, 7));
    kid.shm_write(write, 0, b"z").unwrap();
    assert_eq!(alice.shm_read(read, 0, 1).unwrap(), b"z");
    assert_eq!(rule(kid.shm_write(read, 0, b"y")), Some(Rule::ReadOnly));
    kid.exit().unwrap();
    assert_eq!(alice.getval(set, 0), Ok(5));
    assert_eq!(alice.shm_stat(segment).unwrap().nattch, 2);
    alice.fork(KID, 9).unwrap();
    alice.shm_rmid(segment).unwrap();
    alice.exit().unwrap();
    assert_eq!((kid.getval(set, 0), kid.getpid(set, 0)), (Ok(0), Ok(1)));
    assert!(kid.shm_stat(segment).unwrap().is_marked);
    kid.shmdt(write).unwrap();
    kid.shmdt(read).unwrap();
    let gone = kid.shm_stat(segment).unwrap_err();
    assert_eq!(gone.rule(), Some(Rule::BadId));
}

#[test]
fn the_last_thread_ends_the_process() {
    let [mut alice, _, _, mut tom, mut root] = open_with_two_ended();
    let set = new_set(&mut alice);
    alice.clone_into(TOM).unwrap();
    add(&mut tom, set, 3);
    let (segment, attached) = new_segment(&mut tom);
    tom.exit().unwrap();
    assert_eq!(alice.shm_read(attached, 0, 1).unwrap(), [0]);
    alice.clone_into(TOM).unwrap();
    alice.exit().unwrap();
    assert_eq!(root.getval(set, 0), Ok(3));
    root.interrupt(1).unwrap();
    tom.exit().unwrap();
    assert_eq!((root.getval(set, 0), root.getpid(set, 0)), (Ok(0), Ok(1)));
    assert_eq!(rule(root.interrupt(1)), Some(Rule::NoProcess));
    // Its number is free, and who has it next has nothing of it.
    let same = Identity {
        uid: 100,
        gid: 10,
        ..NOBODY
    };
    alice.begin(1, same).unwrap();
    assert_eq!(alice.shm_stat(segment).unwrap().nattch, 0);
    assert_eq!(rule(alice.shmdt(attached)), Some(Rule::NotAttached));
}

#[test]
fn exec_keeps_semadj_alone() {
    let [_, _, mut kid, tom, mut root] = open_with_two_ended();
    let creds = Identity {
        uid: 300,
        gid: 30,
        ruid: 300,
        rgid: 30,
        suid: 100,
        sgid: 10,
        ..NOBODY
    };
    kid.begin(9, creds).unwrap();
    kid.setcreds(100, 10, None).unwrap();
    kid.setcreds(300, 30, None).unwrap();
    let set = new_set(&mut kid);
    let (segment, attached) = new_segment(&mut kid);
    add(&mut kid, set, 4);
    kid.clone_into(TOM).unwrap();
    let waiting = start_waiting(tom, set);
    await_waiting(&mut root, set, 1);
    kid.set_time(5);
    kid.exec().unwrap();
    let (mut tom, error) = waiting.join().unwrap();
    assert_eq!((error.errno(), error.rule()), (3, Some(Rule::Ended)));
    assert_eq!(rule(tom.exit()), Some(Rule::Ended));
    let status = kid.shm_stat(segment).unwrap();
    assert_eq!((status.nattch, status.lpid, status.dtime), (0, 9, 5));
    assert_eq!(rule(kid.shmdt(attached)), Some(Rule::NotAttached));
    assert_eq!(rule(kid.setcreds(100, 30, None)), Some(Rule::NotOwnUser));
    assert_eq!(rule(kid.setcreds(300, 10, None)), Some(Rule::NotOwnGroup));
    assert_eq!(root.getval(set, 0), Ok(4));
    kid.exit().unwrap();
    assert_eq!(root.getval(set, 0), Ok(0));
}

#[test]
fn a_process_is_killed_while_its_threads_wait() {
    let [mut alice, _, _, tom, mut root] = open_with_two_ended();
    let set = new_set(&mut alice);
    add(&mut alice, set, 4);
    alice.clone_into(TOM).unwrap();
    let threads = [alice, tom].map(|client| start_waiting(client, set));
    await_waiting(&mut root, set, 2);
    root.kill(1).unwrap();
    for thread in threads {
        let (mut client, error) = thread.join().unwrap();
        let (errno, rule) = (3, Rule::Ended);
        assert_eq!(error, Error::Refused { errno, rule });
        assert_eq!(client.exit(), Err(error));
    }
    assert_eq!((root.getval(set, 0), root.getncnt(set, 1)), (Ok(0), Ok(0)));
    assert_eq!(rule(root.kill(1)), Some(Rule::NoProcess));
}

#[test]
fn an_interrupt_of_one_thread_and_of_all() {
    let [mut alice, _, _, tom, mut root] = open_with_two_ended();
    let set = new_set(&mut alice);
    alice.clone_into(TOM).unwrap();
    let first = start_waiting(alice, set);
    let second = start_waiting(tom, set);
    await_waiting(&mut root, set, 2);
    root.interrupt_thread(TOM).unwrap();
    let (tom, error) = second.join().unwrap();
    assert_eq!((error.errno(), error.rule()), (4, Some(Rule::Interrupted)));
    assert_eq!(root.getncnt(set, 1), Ok(1));
    let second = start_waiting(tom, set);
    await_waiting(&mut root, set, 2);
    root.interrupt(1).unwrap();
    for thread in [first, second] {
        let (_, error) = thread.join().unwrap();
        assert_eq!(error.rule(), Some(Rule::Interrupted));
    }
}

#[test]
fn a_process_has_another_name() {
    let [mut alice, _, mut kid, mut tom, mut root] = open_with_two_ended();
    let set = new_set(&mut alice);
    let (_, attached) = new_segment(&mut alice);
    alice.fork(KID, 1 << 31).unwrap();
    kid.clone_into(TOM).unwrap();
    add(&mut tom, set, 2);
    assert_eq!(rule(kid.name(0)), Some(Rule::BadPid));
    assert_eq!(rule(kid.name(1)), Some(Rule::PidInUse));
    kid.name(1 << 31).unwrap();
    kid.name(77).unwrap();
    assert_eq!(root.getpid(set, 0), Ok(1 << 31));
    assert_eq!(rule(root.interrupt(1 << 31)), Some(Rule::NoProcess));
    assert_eq!(kid.shm_read(attached, 0, 1).unwrap(), [0]);
    kid.exit().unwrap();
    tom.exit().unwrap();
    assert_eq!((root.getval(set, 0), root.getpid(set, 0)), (Ok(0), Ok(77)));
    alice.name(77).unwrap();
}

#[test]
fn credentials_are_the_threads_own() {
    let [mut alice, mut bob, _, mut tom, mut root] = open_with_two_ended();
    let queue = bob.msgget(0, GetFlags::mode(0o640)).unwrap();
    assert_eq!(
        alice.msg_stat(queue).unwrap_err().rule(),
        Some(Rule::OtherBits)
    );
    let mut creds = Identity {
        suid: 300,
        groups: &[20],
        ..NOBODY
    };
    alice.assume(creds).unwrap();
    assert_eq!(alice.msg_stat(queue).unwrap().perm.uid, 200);
    alice.setcreds(300, 50, None).unwrap();
    assert_eq!(rule(alice.setcreds(100, 50, None)), Some(Rule::NotOwnUser));
    // A thread that stays is not changed with its sibling.
    root.clone_into(TOM).unwrap();
    root.assume(NOBODY).unwrap();
    assert_eq!(rule(root.msg_rmid(queue)), Some(Rule::NotOwner));
    tom.msg_rmid(queue).unwrap();
    creds.groups = &[7; 33];
    assert_eq!(rule(tom.assume(creds)), Some(Rule::TooManyGroups));
    creds.groups = &[];
    creds.caps = Caps::SYS_ADMIN;
    bob.assume(creds).unwrap();
    bob.kill(1).unwrap();
}

#[test]
fn each_argument_is_its_own() {
    let users = [Creds::new(100, 10), Creds::new(200, 20)];
    let clients = Service::open_with_journal(&Limits::default(), &users).unwrap();
    let [mut alice, mut bob] = <[Client; 2]>::try_from(clients).unwrap();
    let creds = Identity {
        uid: 1,
        gid: 2,
        ruid: 3,
        rgid: 4,
        suid: 5,
        sgid: 6,
        groups: &[7, 8],
        caps: Caps::SYS_ADMIN | Caps::SETGID,
    };
    let number = bob.number();
    bob.exit().unwrap();
    bob.begin(21, creds).unwrap();
    bob.assume(creds).unwrap();
    bob.exit().unwrap();
    alice.fork(number, 22).unwrap();
    alice.kill(22).unwrap();
    alice.clone_into(number).unwrap();
    bob.name(23).unwrap();
    alice.interrupt_thread(number).unwrap();
    alice.interrupt(23).unwrap();
    bob.exec().unwrap();
    let mut text = String::new();
    alice.journal().read_to_string(&mut text).unwrap();
    let calls: Vec<&str> = text
        .lines()
        .filter_map(|line| line.strip_prefix("at 0 client "))
        .collect();
    let told = "effective 1:2 real 3:4 saved 5:6 groups 7,8 caps 18,SYS_ADMIN,SETGID";
    let wanted = [
        "1: exit",
        &format!("1: begin 21: {told}"),
        &format!("1: assume: {told}"),
        "1: exit",
        "0: fork client:1 22",
        "0: kill 22",
        "0: clone client:1",
        "1: name 23",
        "0: interrupt client:1",
        "0: interrupt 23",
        "1: exec",
    ];
    assert_eq!(calls, wanted);
}
