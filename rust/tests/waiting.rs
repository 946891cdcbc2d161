//! Calls that wait, and what becomes of a call whose `Posted` is dropped.

use ipcsh::{Advanced, Call, Client, Creds, Error, GetFlags, Limits, Message, Posted, QueueId};
use ipcsh::{Receive, Rule, SendFlags, Service};
use std::thread;

const ANY: Receive = Receive {
    size: 80,
    msgtyp: 0,
    flags: ipcsh::ReceiveFlags::NONE,
};

fn two() -> ([Client; 2], QueueId) {
    let users = [Creds::new(100, 10), Creds::new(100, 10)];
    let clients = Service::open(&Limits::default(), &users).unwrap();
    let [mut alice, bob] = <[Client; 2]>::try_from(clients).unwrap();
    let queue = alice
        .msgget(1, GetFlags::CREAT | GetFlags::mode(0o600))
        .unwrap();
    ([alice, bob], queue)
}

fn that_waits<'c, T>(mut posted: Posted<'c, T>) -> Posted<'c, T> {
    loop {
        match posted.advance() {
            Advanced::Waiting(still) => return still,
            Advanced::InFlight(still) => posted = still,
            Advanced::Ended(_) => panic!("it has ended"),
        }
    }
}

fn hello() -> Message {
    let text = b"hello".to_vec();
    Message { mtype: 7, text }
}

#[test]
fn a_call_that_waits_is_ended_by_another() {
    let ([mut alice, mut bob], queue) = two();
    let receives = that_waits(alice.post(Call::msgrcv(queue, ANY)).unwrap());
    bob.msgsnd(queue, 7, b"hello", SendFlags::NONE).unwrap();
    let Advanced::Ended(result) = receives.advance() else {
        panic!("it still waits")
    };
    assert_eq!(result, Ok(hello()));
    let (sent, received) = (bob.last().unwrap(), alice.last().unwrap());
    assert_eq!(
        (received.event, sent.turn, received.turn),
        (sent.event, 0, 1)
    );
}

#[test]
fn a_client_waits_in_its_thread() {
    let ([mut alice, mut bob], queue) = two();
    let waits = thread::spawn(move || alice.msgrcv(queue, ANY));
    bob.msgsnd(queue, 7, b"hello", SendFlags::NONE).unwrap();
    assert_eq!(waits.join().unwrap(), Ok(hello()));
}

#[test]
fn a_wait_ends_by_an_interrupt_and_by_a_removal() {
    let ([mut alice, mut bob], queue) = two();
    let pid = alice.pid();
    let receives = that_waits(alice.post(Call::msgrcv(queue, ANY)).unwrap());
    bob.interrupt(pid).unwrap();
    let interrupted = receives.wait().unwrap_err();
    assert_eq!(
        interrupted,
        Error::Refused {
            errno: 4,
            rule: Rule::Interrupted
        }
    );
    let receives = that_waits(alice.post(Call::msgrcv(queue, ANY)).unwrap());
    bob.msg_rmid(queue).unwrap();
    assert_eq!(
        receives.wait(),
        Err(Error::Refused {
            errno: 43,
            rule: Rule::Removed
        })
    );
}

#[test]
fn a_wait_ends_by_its_deadline() {
    let ([mut alice, mut bob], queue) = two();
    let set = alice
        .semget(1, 1, GetFlags::CREAT | GetFlags::mode(0o600))
        .unwrap();
    let take = [ipcsh::SemOp {
        num: 0,
        op: -1,
        flags: ipcsh::SemFlags::NONE,
    }];
    let waits = that_waits(alice.post(Call::semtimedop(set, &take, 5)).unwrap());
    bob.set_time(5);
    bob.msg_stat(queue).unwrap();
    assert_eq!(waits.wait().unwrap_err().rule(), Some(Rule::TimedOut));
}

#[test]
fn a_dropped_call_goes_on() {
    let ([mut alice, mut bob], queue) = two();
    drop(that_waits(alice.post(Call::msgrcv(queue, ANY)).unwrap()));
    let error = alice.getval(ipcsh::SetId(0), 0).unwrap_err();
    assert_eq!(
        (error, error.errno(), error.rule()),
        (Error::Busy, 16, None)
    );
    bob.msgsnd(queue, 7, b"hello", SendFlags::NONE).unwrap();
    assert_eq!(alice.msg_stat(queue).unwrap().qnum, 0);
}

#[test]
fn a_client_is_closed_while_its_call_waits() {
    let ([mut alice, mut bob], queue) = two();
    drop(that_waits(alice.post(Call::msgrcv(queue, ANY)).unwrap()));
    drop(alice);
    bob.msgsnd(queue, 7, b"hello", SendFlags::NONE).unwrap();
    assert_eq!(bob.msg_stat(queue).unwrap().qnum, 0);
}
