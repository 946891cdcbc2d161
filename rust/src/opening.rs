//! What a service is opened with.

use crate::client::Client;
use crate::error::OpenError;
use crate::flags::Caps;
use crate::handle;
use crate::raw::{RawClient, RawLimits};

/// A service: a namespace of queues, sets and segments, whose calls come from its clients. It goes with the last of them.
pub enum Service {}

impl Service {
    /// Opens a service for 1 to 64 clients, and gives them in the order of their credentials. It keeps no journal: a call
    /// leaves nothing in memory but what it made, as a message, a waiting call, an object or an attachment.
    pub fn open(limits: &Limits, clients: &[Creds]) -> Result<Vec<Client>, OpenError> {
        Service::opened(limits, clients, false)
    }

    /// The same, and the service keeps its journal, some 130 bytes a call and its text, until it is read by the [`Journal`] of
    /// the first client.
    pub fn open_with_journal(limits: &Limits, clients: &[Creds]) -> Result<Vec<Client>, OpenError> {
        Service::opened(limits, clients, true)
    }

    fn opened(limits: &Limits, clients: &[Creds], journal: bool) -> Result<Vec<Client>, OpenError> {
        let raw: Vec<RawClient> = clients.iter().map(Creds::raw).collect();
        let handles = handle::open(&limits.raw(journal), &raw).map_err(OpenError::of_code)?;
        Ok((1..)
            .zip(handles)
            .map(|(pid, handle)| Client::new(pid, handle))
            .collect())
    }
}

/// The limits of a namespace, each with the name of Linux where it has one (proc_sys_kernel(5)).
#[derive(Clone, Copy, Debug, PartialEq, Eq)]
pub struct Limits {
    /// MSGMNI, slots for queues, 1 to 32768.
    pub queues: u32,
    /// SEMMNI, slots for semaphore sets, 1 to 32768.
    pub sets: u32,
    /// SHMMNI, slots for segments, 1 to 32768.
    pub segments: u32,
    /// The sequence number of a slot that was never used.
    pub first_seq: u16,
    /// MSGMAX, the longest text of a message in bytes, 1 to 65536.
    pub msg_max: u32,
    /// MSGMNB, msg_qbytes of a new queue, 1 to 2147483647.
    pub msg_mnb: u32,
    /// SEMMSL, semaphores in a set, 1 to 32000.
    pub sem_msl: u32,
    /// SEMOPM, operations in a semop, 1 to 500.
    pub sem_opm: u32,
    /// SHMMAX, the largest segment in bytes, 1 to 1073741824.
    pub shm_max: u32,
}

impl Default for Limits {
    /// Those of Linux, with 128 slots for each kind.
    fn default() -> Limits {
        Limits {
            queues: 128,
            sets: 128,
            segments: 128,
            first_seq: 0,
            msg_max: 8192,
            msg_mnb: 16384,
            sem_msl: 32000,
            sem_opm: 500,
            shm_max: 33_554_432,
        }
    }
}

impl Limits {
    fn raw(&self, journal: bool) -> RawLimits {
        RawLimits {
            queues: self.queues,
            sets: self.sets,
            segments: self.segments,
            msg_max: self.msg_max,
            msg_mnb: self.msg_mnb,
            sem_msl: self.sem_msl,
            sem_opm: self.sem_opm,
            shm_max: self.shm_max,
            first_seq: self.first_seq.into(),
            journal: journal.into(),
        }
    }
}

/// The credentials with which a client begins (credentials(7)): its effective, real and saved user and group are the same.
#[derive(Clone, Debug, Default, PartialEq, Eq)]
pub struct Creds {
    /// The user.
    pub uid: u32,
    /// The group.
    pub gid: u32,
    /// The supplementary groups, 32 at most.
    pub groups: Vec<u32>,
    /// The capabilities.
    pub caps: Caps,
}

impl Creds {
    /// Those of a user without supplementary groups and capabilities.
    pub fn new(uid: u32, gid: u32) -> Creds {
        Creds {
            uid,
            gid,
            ..Creds::default()
        }
    }

    /// The same with these supplementary groups.
    pub fn with_groups(self, groups: &[u32]) -> Creds {
        Creds {
            groups: groups.to_vec(),
            ..self
        }
    }

    /// The same with these capabilities.
    pub fn with_caps(self, caps: Caps) -> Creds {
        Creds { caps, ..self }
    }

    // More groups than there is room for are told, so that they are refused.
    fn raw(&self) -> RawClient {
        let mut groups = [0; 32];
        for (place, group) in groups.iter_mut().zip(&self.groups) {
            *place = *group;
        }
        RawClient {
            uid: self.uid,
            gid: self.gid,
            caps: self.caps.bits(),
            ngroups: self.groups.len().try_into().unwrap_or(u32::MAX),
            groups,
        }
    }
}
