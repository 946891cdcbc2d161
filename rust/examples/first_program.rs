//! Two clients share a queue: one creates it, and the other may send to it, but not receive from it.

use ipcsh::{Creds, GetFlags, Limits, Receive, SendFlags, Service};
use std::io;

fn main() -> io::Result<()> {
    let users = [Creds::new(100, 10), Creds::new(200, 20)];
    let mut clients = Service::open(&Limits::default(), &users)?;
    let [alice, bob] = &mut clients[..] else {
        unreachable!("a client for each user");
    };
    let queue = alice.msgget(5, GetFlags::CREAT | GetFlags::mode(0o622))?;
    bob.msgsnd(queue, 1, b"hello", SendFlags::NONE)?;
    let message = alice.msgrcv(queue, Receive::new(80, 0))?;
    println!(
        "alice: type {}, {} bytes",
        message.mtype,
        message.text.len()
    );
    if let Err(error) = bob.msgrcv(queue, Receive::new(80, 0)) {
        println!("bob: {error}");
    }
    Ok(())
}
