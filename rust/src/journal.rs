//! The journal of a service, read while the service goes on.

use crate::client::{Client, NO_MEMORY};
use crate::error::{EINVAL, Error};
use std::io;
use std::thread;

// What the library says of a read.
const COMBINING: i32 = -11;
const NO_JOURNAL: i32 = -12;

/// The text of a service's journal, from where it was read last. All that is read of it, one behind another, is a journal that
/// `./ipcsh_journal --replay` checks. Where nothing is read there is no more as yet.
///
/// Reading fails with EINVAL where the service keeps no journal, or where the client isn't its first; with EBUSY where an earlier
/// call of the client waits; and with ENOMEM where an allocation fails. Nothing is lost then.
#[derive(Debug)]
pub struct Journal<'c> {
    client: &'c mut Client,
}

impl Client {
    /// The journal of the service, where it was opened by [`open_with_journal`](crate::Service::open_with_journal) and this is
    /// its first client.
    pub fn journal(&mut self) -> Journal<'_> {
        Journal { client: self }
    }
}

impl io::Read for Journal<'_> {
    fn read(&mut self, bytes: &mut [u8]) -> io::Result<usize> {
        self.client.end_dropped()?;
        loop {
            match self.client.handle.read_journal(bytes) {
                Ok(count) => return Ok(count),
                Err(COMBINING) => thread::yield_now(),
                Err(NO_MEMORY) => return Err(Error::NoMemory.into()),
                Err(NO_JOURNAL) => return Err(io::Error::from_raw_os_error(EINVAL)),
                Err(code) => unreachable!("ipcsh_raw_read_journal gave {code}"),
            }
        }
    }
}
