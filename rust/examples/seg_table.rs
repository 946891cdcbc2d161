//! A table of counters in a shared memory segment, guarded by a semaphore: a client locks with SEM_UNDO, reads a row, adds to
//! it, writes it back, and unlocks. One client exits with the lock, and the other gets it: what the first left undone is
//! undone, and the table is as it was written.

use ipcsh::{Advanced, AttachFlags, Attached, Call, Client, Creds, Error, GetFlags};
use ipcsh::{Limits, Posted, SemFlags, SemOp, Service, SetId};
use std::io;

const ROW: u64 = 4;

/// What a client has of the table.
#[derive(Clone, Copy)]
struct Table {
    lock: SetId,
    rows: Attached,
}

/// An operation on the lock, undone at exit.
fn change(op: i16) -> [SemOp; 1] {
    let flags = SemFlags::UNDO;
    [SemOp { num: 0, op, flags }]
}

/// Asks for the lock, and doesn't wait for it: None where the client has it.
fn lock(client: &mut Client, table: Table) -> Result<Option<Posted<'_, ()>>, Error> {
    let mut posted = client.post(Call::semop(table.lock, &change(-1)))?;
    loop {
        match posted.advance() {
            Advanced::Ended(result) => return result.map(|()| None),
            Advanced::Waiting(still) => return Ok(Some(still)),
            Advanced::InFlight(still) => posted = still,
        }
    }
}

/// Adds 1 to row 2 of the table, and unlocks it.
fn add_locked(client: &mut Client, table: Table) -> Result<(), Error> {
    let row = client.shm_read(table.rows, 2 * ROW, ROW)?;
    let value = u32::from_le_bytes(row.try_into().expect("a row has 4 bytes"));
    println!("client {}: {value} before", client.pid() - 1);
    client.shm_write(table.rows, 2 * ROW, &(value + 1).to_le_bytes())?;
    client.semop(table.lock, &change(1))
}

/// Finds or creates the table, and attaches it.
fn open(client: &mut Client) -> Result<Table, Error> {
    let flags = GetFlags::CREAT | GetFlags::mode(0o600);
    let lock = client.semget(7, 1, flags)?;
    let segment = client.shmget(7, 64, flags)?;
    let rows = client.shmat(segment, AttachFlags::NONE)?;
    Ok(Table { lock, rows })
}

fn run(first: &mut Client, second: &mut Client) -> Result<(), Error> {
    let (firsts, seconds) = (open(first)?, open(second)?);
    first.setval(firsts.lock, 0, 1)?;
    first.semop(firsts.lock, &change(-1))?;
    add_locked(first, firsts)?;
    second.semop(seconds.lock, &change(-1))?;
    add_locked(second, seconds)?;
    first.semop(firsts.lock, &change(-1))?;
    let waiting = lock(second, seconds)?.expect("the first client has the lock");
    println!("client 1: waits for the lock");
    first.exit()?;
    // The exit gave the lock back, and the second client's semop ended with it.
    waiting.wait()?;
    add_locked(second, seconds)
}

fn main() -> io::Result<()> {
    let users = [Creds::new(100, 10), Creds::new(100, 10)];
    let mut clients = Service::open(&Limits::default(), &users)?;
    let [first, second] = &mut clients[..] else {
        unreachable!("a client for each user");
    };
    Ok(run(first, second)?)
}
