//! A server forks two workers, which share its table and its lock. The first takes the lock with SEM_UNDO and waits for a job
//! that never comes, until it is killed: its lock comes back, and the second worker, which waits for it, goes on and does the job.

use ipcsh::{AttachFlags, Attached, Client, Creds, Error, GetFlags, Limits, QueueId, Receive};
use ipcsh::{SemFlags, SemOp, SendFlags, Service, SetId};
use std::thread::{self, Scope, ScopedJoinHandle};
use std::{array, io};

const FIRST_PID: u32 = 11;
const JOB: i64 = 1;

/// What the server makes and a worker knows by number; a worker's attachment is a copy of the server's.
#[derive(Clone, Copy)]
struct Shared {
    lock: SetId,
    jobs: QueueId,
    table: Attached,
}

type Worker<'s> = ScopedJoinHandle<'s, Result<(), Error>>;

/// An operation on the lock, undone where its process ends.
fn change(op: i16) -> [SemOp; 1] {
    let flags = SemFlags::UNDO;
    [SemOp { num: 0, op, flags }]
}

fn number_of(bytes: Vec<u8>) -> u32 {
    u32::from_le_bytes(bytes.try_into().expect("a number has 4 bytes"))
}

/// Adds the number of a job to the table, under the lock. A worker that is killed ends with the first call that is refused.
fn work(worker: &mut Client, shared: Shared) -> Result<(), Error> {
    worker.semop(shared.lock, &change(-1))?;
    let job = worker.msgrcv(shared.jobs, Receive::new(4, JOB))?;
    let sum = number_of(worker.shm_read(shared.table, 0, 4)?) + number_of(job.text);
    worker.shm_write(shared.table, 0, &sum.to_le_bytes())?;
    worker.semop(shared.lock, &change(1))?;
    worker.exit()
}

/// Forks a worker into a client, and starts its thread. A client is at first a process of its own, which has to end before.
fn start<'s, 'e>(
    scope: &'s Scope<'s, 'e>,
    server: &mut Client,
    worker: &'e mut Client,
    shared: Shared,
) -> Result<Worker<'s>, Error> {
    worker.exit()?;
    server.fork(worker.number(), FIRST_PID + worker.number() - 1)?;
    Ok(scope.spawn(move || work(worker, shared)))
}

/// Looks at the lock until its value is 0 and so many calls wait for it.
fn await_lock(server: &mut Client, lock: SetId, waiting: u32) -> Result<(), Error> {
    while server.getval(lock, 0)? > 0 || server.getncnt(lock, 0)? < waiting {
        thread::yield_now();
    }
    Ok(())
}

fn join(worker: Worker, name: &str) {
    match worker.join().expect("no worker panics") {
        Ok(()) => println!("{name} worker: done"),
        Err(error) => {
            let rule = error.rule().map_or("", |rule| rule.name());
            println!("{name} worker: error {}, {rule}", error.errno());
        }
    }
}

/// The lock, the queue of jobs, and the table, which the server attaches before it forks.
fn made_by(server: &mut Client) -> Result<Shared, Error> {
    let mode = GetFlags::mode(0o600);
    let lock = server.semget(0, 1, mode)?;
    server.setval(lock, 0, 1)?;
    let jobs = server.msgget(0, mode)?;
    let segment = server.shmget(0, 4, mode)?;
    let table = server.shmat(segment, AttachFlags::NONE)?;
    Ok(Shared { lock, jobs, table })
}

fn run(server: &mut Client, one: &mut Client, two: &mut Client) -> Result<(), Error> {
    let shared = made_by(server)?;
    thread::scope(|scope| {
        let first = start(scope, server, one, shared)?;
        await_lock(server, shared.lock, 0)?;
        let second = start(scope, server, two, shared)?;
        await_lock(server, shared.lock, 1)?;
        server.kill(FIRST_PID)?;
        join(first, "first");
        server.msgsnd(shared.jobs, JOB, &7u32.to_le_bytes(), SendFlags::NONE)?;
        join(second, "second");
        Ok(())
    })?;
    let sum = number_of(server.shm_read(shared.table, 0, 4)?);
    let lock = match server.getval(shared.lock, 0)? {
        0 => "taken",
        _ => "free",
    };
    println!("the table has {sum}, and the lock is {lock}");
    Ok(())
}

fn main() -> io::Result<()> {
    let users: [Creds; 3] = array::from_fn(|_| Creds::new(100, 10));
    let mut clients = Service::open(&Limits::default(), &users)?;
    let [server, one, two] = &mut clients[..] else {
        unreachable!("a client for each user");
    };
    Ok(run(server, one, two)?)
}
