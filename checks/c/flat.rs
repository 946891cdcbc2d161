//! Memory stays flat, as checks/c/flat.c has it: calls with texts, as many as the first word says. With a second word the service keeps its
//! journal, which is read every thousand calls and written to the file of this name.

use ipcsh::{
    Client, Creds, GetFlags, Limits, QueueId, Receive, SemFlags, SemOp, SendFlags, Service, SetId,
};
use std::fs::{self, File};
use std::{env, io};

const FIRST: u64 = 10_000;
const A_PART: u64 = 1_000;
const MORE: u64 = 1 << 20;
const PAGE: u64 = 4096;

/// What the process has in memory, in bytes: proc(5), statm.
fn in_memory() -> io::Result<u64> {
    let statm = fs::read_to_string("/proc/self/statm")?;
    let resident = statm
        .split(' ')
        .nth(1)
        .and_then(|word| word.parse::<u64>().ok());
    resident
        .map(|pages| pages * PAGE)
        .ok_or(io::ErrorKind::InvalidData.into())
}

fn unit(op: i16) -> SemOp {
    SemOp {
        num: 0,
        op,
        flags: SemFlags::NONE,
    }
}

/// Four calls: a message of other lengths each time, its receipt by the other client, a lock that is taken and given back.
fn four_calls(clients: &mut [Client], queue: QueueId, set: SetId, n: u64) -> io::Result<()> {
    let [alice, bob] = clients else {
        unreachable!("two clients")
    };
    alice.msgsnd(queue, 1, &[7; 256][..(n % 256) as usize], SendFlags::NONE)?;
    bob.msgrcv(queue, Receive::new(256, 0))?;
    alice.semop(set, &[unit(1)])?;
    Ok(bob.semop(set, &[unit(-1)])?)
}

/// Makes the calls, and gives how many bytes more there are in memory at the end than after the first ten thousand.
fn grown(clients: &mut [Client], calls: u64, file: &mut Option<File>) -> io::Result<u64> {
    let flags = GetFlags::CREAT | GetFlags::mode(0o600);
    let queue = clients[0].msgget(1, flags)?;
    let set = clients[0].semget(1, 1, flags)?;
    let mut first = 0;
    for n in (4..=calls).step_by(4) {
        four_calls(clients, queue, set, n)?;
        if let Some(file) = file.as_mut().filter(|_| n % A_PART == 0 || n == calls) {
            io::copy(&mut clients[0].journal(), file)?;
        }
        if n == FIRST {
            first = in_memory()?;
        }
    }
    Ok(in_memory()?.saturating_sub(first))
}

fn main() -> io::Result<()> {
    let mut words = env::args().skip(1);
    let calls = words.next().and_then(|word| word.parse().ok());
    let mut file = words.next().map(File::create).transpose()?;
    let users = [Creds::new(100, 10), Creds::new(100, 10)];
    let mut clients = match file {
        Some(_) => Service::open_with_journal(&Limits::default(), &users)?,
        None => Service::open(&Limits::default(), &users)?,
    };
    match grown(&mut clients, calls.unwrap_or(FIRST), &mut file)? {
        0..=MORE => println!("flat"),
        more => {
            return Err(io::Error::other(format!(
                "{more} bytes more than after {FIRST} calls"
            )));
        }
    }
    Ok(())
}
