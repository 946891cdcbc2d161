//! A queue of jobs: a boss hands out numbers, three workers square them, each in a thread of its own. Whoever finds calls
//! serves them, so there is no lock, and which worker gets which job is left open. What is printed isn't.

use ipcsh::{Client, Creds, Error, GetFlags, Limits, QueueId, Receive, SendFlags, Service};
use std::{io, thread};

const JOBS: u32 = 12;

/// The types of messages to workers.
const JOB: i64 = 1;
const STOP: i64 = 2;

#[derive(Clone, Copy)]
struct Queues {
    jobs: QueueId,
    results: QueueId,
}

fn number_of(text: Vec<u8>) -> u32 {
    u32::from_le_bytes(text.try_into().expect("a number has 4 bytes"))
}

/// Jobs come before the message that ends the work: a msgtyp of -2 asks for the lowest type.
fn work(worker: &mut Client, queues: Queues) -> Result<(), Error> {
    loop {
        let message = worker.msgrcv(queues.jobs, Receive::new(4, -STOP))?;
        if message.mtype == STOP {
            return Ok(());
        }
        let number = number_of(message.text);
        let square = (number * number).to_le_bytes();
        worker.msgsnd(queues.results, number.into(), &square, SendFlags::NONE)?;
    }
}

fn hand_out(boss: &mut Client, queues: Queues, workers: usize) -> Result<(), Error> {
    for number in 1..=JOBS {
        boss.msgsnd(queues.jobs, JOB, &number.to_le_bytes(), SendFlags::NONE)?;
    }
    for _ in 0..workers {
        boss.msgsnd(queues.jobs, STOP, b"", SendFlags::NONE)?;
    }
    for number in 1..=JOBS {
        let result = boss.msgrcv(queues.results, Receive::new(4, number.into()))?;
        println!("job {number}: {}", number_of(result.text));
    }
    Ok(())
}

fn main() -> io::Result<()> {
    let users = [100, 101, 102, 103].map(|uid| Creds::new(uid, 10));
    let mut clients = Service::open(&Limits::default(), &users)?;
    let (boss, workers) = clients.split_first_mut().expect("a client for each user");
    let flags = GetFlags::CREAT | GetFlags::mode(0o660);
    let queues = Queues {
        jobs: boss.msgget(1, flags)?,
        results: boss.msgget(2, flags)?,
    };
    thread::scope(|scope| {
        let count = workers.len();
        let threads: Vec<_> = workers
            .iter_mut()
            .map(|worker| scope.spawn(move || work(worker, queues)))
            .collect();
        hand_out(boss, queues, count)?;
        threads
            .into_iter()
            .try_for_each(|thread| thread.join().expect("no worker panics"))
    })?;
    println!("jobs left: {}", boss.msg_stat(queues.jobs)?.qnum);
    // A call that is refused says why.
    if let Err(error) = workers[0].msg_rmid(queues.jobs) {
        let rule = error.rule().map_or("", |rule| rule.name());
        println!(
            "a worker removes the queue: error {}, {rule}",
            error.errno()
        );
    }
    Ok(())
}
