//! Each call once, and all that it is answered.

use ipcsh::{
    AttachFlags, Attached, Caps, Client, Creds, GetFlags, Kind, Limits, Listed, Owner, Perm,
};
use ipcsh::{QueueSettings, QueueStatus, Receive, Row, Rule, SegmentStatus, SemFlags, SemOp};
use ipcsh::{SendFlags, Service, SetStatus};

const OWNER: Owner = Owner {
    uid: 101,
    gid: 11,
    mode: 0o640,
};

const NEW: Perm = Perm {
    key: 5,
    uid: 100,
    gid: 10,
    cuid: 100,
    cgid: 10,
    mode: 0o600,
};

const SET: Perm = Perm {
    uid: 101,
    gid: 11,
    mode: 0o640,
    ..NEW
};

const LISTED: Listed = Listed {
    key: 5,
    id: 0,
    uid: 101,
    mode: 0o640,
};

const CREATES: u32 = 0o600;

fn flags() -> GetFlags {
    GetFlags::CREAT | GetFlags::mode(CREATES)
}

// The first client may do everything.
fn open() -> [Client; 2] {
    let caps = Caps::IPC_OWNER | Caps::SYS_ADMIN | Caps::SYS_RESOURCE | Caps::SETUID | Caps::SETGID;
    let users = [Creds::new(100, 10).with_caps(caps), Creds::new(101, 11)];
    let clients = Service::open(&Limits::default(), &users).unwrap();
    let mut clients = <[Client; 2]>::try_from(clients).unwrap();
    clients[0].set_time(1000);
    clients[1].set_time(2000);
    clients
}

#[test]
fn queues() {
    let [mut root, mut user] = open();
    let queue = root.msgget(5, flags()).unwrap();
    assert_eq!(
        root.msgget(5, flags() | GetFlags::EXCL).unwrap_err().rule(),
        Some(Rule::KeyExists)
    );
    root.msgsnd(queue, 7, b"hello", SendFlags::NONE).unwrap();
    let mut wanted = QueueStatus {
        perm: NEW,
        cbytes: 5,
        qnum: 1,
        qbytes: 16384,
        lspid: 1,
        lrpid: 0,
        stime: 1000,
        rtime: 0,
        ctime: 1000,
    };
    assert_eq!(root.msg_stat(queue), Ok(wanted));
    root.msg_set(
        queue,
        QueueSettings {
            owner: OWNER,
            qbytes: Some(99),
        },
    )
    .unwrap();
    assert_eq!(
        root.list(Kind::Queue).unwrap(),
        [Row::Queue {
            object: LISTED,
            cbytes: 5,
            qnum: 1
        }]
    );
    let message = user.msgrcv(queue, Receive::new(80, -9)).unwrap();
    assert_eq!((message.mtype, &message.text[..]), (7, &b"hello"[..]));
    wanted = QueueStatus {
        perm: SET,
        cbytes: 0,
        qnum: 0,
        qbytes: 99,
        lrpid: 2,
        rtime: 2000,
        ..wanted
    };
    assert_eq!(user.msg_stat(queue), Ok(wanted));
    user.msg_rmid(queue).unwrap();
    assert_eq!(user.list(Kind::Queue).unwrap(), []);
}

#[test]
fn sets() {
    let [mut root, mut user] = open();
    let set = root.semget(5, 3, flags()).unwrap();
    root.setall(set, &[1, 2, 32767]).unwrap();
    root.setval(set, 1, 5).unwrap();
    assert_eq!(root.getall(set).unwrap(), [1, 5, 32767]);
    root.sem_set(set, OWNER).unwrap();
    let add = |num, op| SemOp {
        num,
        op,
        flags: SemFlags::UNDO,
    };
    user.semop(set, &[add(0, 3), add(1, -5)]).unwrap();
    user.semtimedop(
        set,
        &[
            add(0, -1),
            SemOp {
                num: 1,
                op: 0,
                flags: SemFlags::NOWAIT,
            },
        ],
        9,
    )
    .unwrap();
    assert_eq!((user.getval(set, 0), user.getval(set, 1)), (Ok(3), Ok(0)));
    assert_eq!(
        (
            user.getpid(set, 0),
            user.getncnt(set, 0),
            user.getzcnt(set, 0)
        ),
        (Ok(2), Ok(0), Ok(0))
    );
    assert_eq!(
        user.sem_stat(set),
        Ok(SetStatus {
            perm: SET,
            nsems: 3,
            otime: 2000,
            ctime: 1000
        })
    );
    assert_eq!(
        user.list(Kind::Sems).unwrap(),
        [Row::Set {
            object: LISTED,
            nsems: 3
        }]
    );
    user.exit().unwrap();
    assert_eq!(root.getall(set).unwrap(), [1, 5, 32767]);
    root.sem_rmid(set).unwrap();
    assert_eq!(root.sem_stat(set).unwrap_err().rule(), Some(Rule::BadId));
}

#[test]
fn segments() {
    let [mut root, mut user] = open();
    let segment = root.shmget(5, 64, flags()).unwrap();
    let rows = root.shmat(segment, AttachFlags::NONE).unwrap();
    root.shm_write(rows, 62, &[7, 8]).unwrap();
    assert_eq!(root.shm_read(rows, 61, 3).unwrap(), [0, 7, 8]);
    assert_eq!(
        root.shm_read(rows, 62, 3).unwrap_err().rule(),
        Some(Rule::OutOfSegment)
    );
    root.shm_set(segment, OWNER).unwrap();
    let read = user.shmat(segment, AttachFlags::RDONLY).unwrap();
    assert_eq!(
        user.shm_write(read, 0, &[1]).unwrap_err().rule(),
        Some(Rule::ReadOnly)
    );
    user.shm_rmid(segment).unwrap();
    user.shmdt(read).unwrap();
    assert_eq!(
        user.shmdt(Attached(0)).unwrap_err().rule(),
        Some(Rule::NotAttached)
    );
    let wanted = SegmentStatus {
        perm: Perm { key: 0, ..SET },
        is_marked: true,
        size: 64,
        nattch: 1,
        cpid: 1,
        lpid: 2,
        atime: 2000,
        dtime: 2000,
        ctime: 1000,
    };
    assert_eq!(root.shm_stat(segment), Ok(wanted));
    let object = Listed { key: 0, ..LISTED };
    let row = Row::Segment {
        object,
        is_marked: true,
        size: 64,
        nattch: 1,
    };
    assert_eq!(root.list(Kind::Segment).unwrap(), [row]);
}

#[test]
fn processes() {
    let [mut root, mut user] = open();
    assert_eq!((root.pid(), user.pid()), (1, 2));
    let queue = root.msgget(5, flags()).unwrap();
    assert_eq!(
        user.setcreds(100, 11, None).unwrap_err().rule(),
        Some(Rule::NotOwnUser)
    );
    assert_eq!(
        user.setcreds(101, 11, Some(&[10])).unwrap_err().rule(),
        Some(Rule::NeedsSetgid)
    );
    root.setcreds(101, 11, Some(&[10, 12])).unwrap();
    root.exit().unwrap();
    assert_eq!(
        user.msg_stat(queue).unwrap_err().rule(),
        Some(Rule::OtherBits)
    );
}
