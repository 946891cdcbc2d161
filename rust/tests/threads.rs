//! Random calls by 8 threads: each is an event of its own, in the order of its thread, and the objects are what they left.

use ipcsh::{
    Client, Creds, Error, GetFlags, Limits, Place, QueueId, Receive, ReceiveFlags, SemFlags,
};
use ipcsh::{SemOp, SendFlags, Service, SetId};
use std::thread;

const THREADS: u64 = 8;
const EACH: u64 = 250;

#[derive(Clone, Copy)]
struct Shared {
    queue: QueueId,
    set: SetId,
}

#[derive(Default)]
struct Made {
    places: Vec<Place>,
    messages: i64,
    added: i64,
}

// xorshift
fn any(state: &mut u64) -> u64 {
    *state ^= *state << 13;
    *state ^= *state >> 7;
    *state ^= *state << 17;
    *state >> 33
}

// One random call, none of which waits: how many messages and how much of the semaphore's value it adds.
fn call(client: &mut Client, shared: Shared, state: &mut u64) -> Result<(i64, i64), Error> {
    let Shared { queue, set } = shared;
    match any(state) % 6 {
        0 | 1 => client
            .msgsnd(queue, 1, &[7; 3], SendFlags::NOWAIT)
            .map(|()| (1, 0)),
        2 => {
            let asked = Receive::new(3, 0).with_flags(ReceiveFlags::NOWAIT);
            client.msgrcv(queue, asked).map(|message| {
                assert_eq!(message.text, [7; 3]);
                (-1, 0)
            })
        }
        3 | 4 => {
            let op = (any(state) % 5) as i16 - 2;
            let change = SemOp {
                num: 0,
                op,
                flags: SemFlags::NOWAIT,
            };
            client.semop(set, &[change]).map(|()| (0, op.into()))
        }
        _ => client.getall(set).map(|_| (0, 0)),
    }
}

fn run(client: &mut Client, shared: Shared) -> Made {
    let mut made = Made::default();
    let mut state = u64::from(client.pid()) * 1_000_003;
    for _ in 0..EACH {
        if let Ok((messages, added)) = call(client, shared, &mut state) {
            made.messages += messages;
            made.added += added;
        }
        made.places
            .push(client.last().expect("each call is an event"));
    }
    assert!(made.places.is_sorted());
    made
}

#[test]
fn calls_of_threads_make_one_history() {
    let users = vec![Creds::new(100, 10); THREADS as usize];
    let mut clients = Service::open(&Limits::default(), &users).unwrap();
    let flags = GetFlags::CREAT | GetFlags::mode(0o600);
    let queue = clients[0].msgget(1, flags).unwrap();
    let set = clients[0].semget(1, 1, flags).unwrap();
    let all: Vec<Made> = thread::scope(|scope| {
        let shared = Shared { queue, set };
        let threads: Vec<_> = clients
            .iter_mut()
            .map(|client| scope.spawn(move || run(client, shared)))
            .collect();
        threads
            .into_iter()
            .map(|thread| thread.join().unwrap())
            .collect()
    });
    let mut places: Vec<Place> = all.iter().flat_map(|made| made.places.clone()).collect();
    places.sort();
    let wanted = (3..)
        .take((THREADS * EACH) as usize)
        .map(|event| Place { event, turn: 0 });
    assert!(places.into_iter().eq(wanted));
    let left = clients[0].msg_stat(queue).unwrap().qnum;
    assert_eq!(
        i64::try_from(left),
        Ok(all.iter().map(|made| made.messages).sum())
    );
    let value = clients[0].getval(set, 0).unwrap();
    assert_eq!(
        i64::from(value),
        all.iter().map(|made| made.added).sum::<i64>()
    );
}
