//! Why calls are refused and services aren't opened, as errors and as errors of the operating system.

use ipcsh::{Caps, Client, Creds, Error, GetFlags, Limits, OpenError, Receive, ReceiveFlags, Rule};
use ipcsh::{SemOp, SendFlags, Service, SetId};
use std::io;

fn open(users: &[Creds]) -> Vec<Client> {
    Service::open(&Limits::default(), users).expect("limits and clients are in their ranges")
}

#[test]
fn services_that_are_not_opened() {
    let one = [Creds::new(100, 10)];
    let defaults = Limits::default();
    let (queues, sets, segments) = (0, 32769, 0);
    let no_queues = Limits { queues, ..defaults };
    let many_sets = Limits { sets, ..defaults };
    let no_segments = Limits {
        segments,
        ..defaults
    };
    for limits in [no_queues, many_sets, no_segments] {
        assert_eq!(
            Service::open(&limits, &one).unwrap_err(),
            OpenError::BadLimits
        );
    }
    assert_eq!(
        Service::open(&Limits::default(), &[]).unwrap_err(),
        OpenError::BadClients
    );
    let many = vec![Creds::default(); 65];
    assert_eq!(
        Service::open(&Limits::default(), &many).unwrap_err(),
        OpenError::BadClients
    );
    let groups = [Creds::new(100, 10).with_groups(&[7; 33])];
    let error = Service::open(&Limits::default(), &groups).unwrap_err();
    assert_eq!(error, OpenError::BadClients);
    assert_eq!(io::Error::from(error).kind(), io::ErrorKind::InvalidInput);
    assert_eq!(open(&many[..64]).len(), 64);
}

#[test]
fn refusals_are_errors_of_the_system() {
    let mut clients = open(&[Creds::new(100, 10), Creds::new(101, 10)]);
    let [alice, bob] = &mut clients[..] else {
        unreachable!()
    };
    let queue = alice
        .msgget(1, GetFlags::CREAT | GetFlags::mode(0o600))
        .unwrap();
    let error = bob.msgrcv(queue, Receive::new(80, 0)).unwrap_err();
    assert_eq!(
        error,
        Error::Refused {
            errno: 13,
            rule: Rule::GroupBits
        }
    );
    assert_eq!(
        error.to_string(),
        "Permission denied (os error 13): group-bits"
    );
    assert_eq!(
        io::Error::from(error).kind(),
        io::ErrorKind::PermissionDenied
    );
    assert_eq!(error.rule().map(Rule::name), Some("group-bits"));
    let absent = bob.msgget(2, GetFlags::NONE).unwrap_err();
    assert_eq!((absent.errno(), absent.rule()), (2, Some(Rule::NoKey)));
    let asked = Receive::new(80, 0).with_flags(ReceiveFlags::NOWAIT);
    assert_eq!(
        alice.msgrcv(queue, asked).unwrap_err().rule(),
        Some(Rule::NoMessage)
    );
    // Only a place tells that a call was made.
    assert_eq!(alice.last().map(|place| place.event), Some(4));
}

#[test]
fn lists_that_are_refused_lose_nothing() {
    let mut clients = open(&[Creds::new(100, 10)]);
    let alice = &mut clients[0];
    let queue = alice
        .msgget(1, GetFlags::CREAT | GetFlags::mode(0o600))
        .unwrap();
    let refused = |result: Result<(), Error>| result.unwrap_err().rule();
    let send =
        |alice: &mut Client, mtype, text: &[u8]| alice.msgsnd(queue, mtype, text, SendFlags::NONE);
    assert_eq!(
        refused(send(alice, 1, &[0; 70_000])),
        Some(Rule::TextTooLong)
    );
    assert_eq!(refused(send(alice, 0, b"hello")), Some(Rule::BadType));
    assert_eq!(
        refused(alice.semop(SetId(0), &[])),
        Some(Rule::NoOperations)
    );
    let flags = ipcsh::SemFlags::NONE;
    let many = [SemOp {
        num: 0,
        op: 1,
        flags,
    }; 501];
    assert_eq!(
        refused(alice.semop(SetId(0), &many)),
        Some(Rule::TooManyOperations)
    );
    assert_eq!(
        refused(alice.setcreds(100, 10, Some(&[10; 33]))),
        Some(Rule::TooManyGroups)
    );
    send(alice, 1, b"").unwrap();
    send(alice, 7, b"hello").unwrap();
    assert_eq!(alice.msg_stat(queue).unwrap().cbytes, 5);
    let longer = alice.msgrcv(queue, Receive::new(4, 7)).unwrap_err();
    assert_eq!(longer.rule(), Some(Rule::MessageTooLong));
    let cut = Receive::new(4, 7).with_flags(ReceiveFlags::NOERROR);
    assert_eq!(alice.msgrcv(queue, cut).unwrap().text, b"hell");
    assert_eq!(alice.msgrcv(queue, Receive::new(0, 0)).unwrap().text, b"");
}

#[test]
fn a_client_that_has_ended_is_refused() {
    let mut clients = open(&[
        Creds::new(100, 10),
        Creds::new(100, 10).with_caps(Caps::IPC_OWNER),
    ]);
    let [alice, bob] = &mut clients[..] else {
        unreachable!()
    };
    alice.exit().unwrap();
    let error = alice.msgget(1, GetFlags::CREAT).unwrap_err();
    assert_eq!(
        error,
        Error::Refused {
            errno: 3,
            rule: Rule::Ended
        }
    );
    assert_eq!(
        bob.interrupt(alice.pid()).unwrap_err().rule(),
        Some(Rule::NoProcess)
    );
    // The service stays as long as one of its clients.
    let mut bob = clients.pop().unwrap();
    drop(clients);
    bob.msgget(1, GetFlags::CREAT | GetFlags::mode(0o600))
        .unwrap();
}
