//! A client, which calls and waits for its answer, or posts a call and goes on with it.

use crate::call::Call;
use crate::error::Error;
use crate::handle::Handle;
use crate::raw::Answer;
use std::time::Duration;
use std::{fmt, thread};

// What the library says of a post and of a step.
const DONE: i32 = 0;
const IN_FLIGHT: i32 = 1;
const WAITING: i32 = 2;
const NO_ROOM: i32 = -6;
pub(crate) const NO_MEMORY: i32 = -7;

/// How often a client looks for its answer before it gives up the processor in between.
const LOOKS: u32 = 16;

/// And how often before it sleeps in between, where its call waits.
const YIELDS: u32 = 1000;

/// What a client does between two looks at a call that hasn't ended. Its sleeps grow from 10 microseconds to a millisecond.
fn pause(still: &Still, looks: u32) {
    match still {
        _ if looks <= LOOKS => {}
        Still::Waiting if looks > YIELDS => {
            let hundredths = u64::from(looks - YIELDS).min(100);
            thread::sleep(Duration::from_micros(10 * hundredths));
        }
        _ => thread::yield_now(),
    }
}

/// A client of a service. It may go to another thread, and is used by one at a time:
///
/// ```compile_fail
/// fn is_shared<T: Sync>() {}
/// is_shared::<ipcsh::Client>();
/// ```
///
/// Each method makes a call and waits for its answer; [`post`](Client::post) doesn't wait. Dropping a client isn't
/// [`exit`](Client::exit): what its operations with `SemFlags::UNDO` did stays, and so do its attachments.
pub struct Client {
    pub(crate) handle: Handle,
    pid: u32,
    time: u64,
    last: Option<Place>,
    is_posted: bool,
}

/// Where a call ended. The calls of all clients of a service make one history.
#[derive(Clone, Copy, Debug, PartialEq, Eq, PartialOrd, Ord)]
pub struct Place {
    /// The number of the event, from 1.
    pub event: u64,
    /// 0 for that event's own call, and then counts the waiting calls that it ended.
    pub turn: u32,
}

/// A call that is posted and hasn't ended. Where it is dropped the call goes on, and its answer is dropped; until it ends the
/// client's other calls fail as [`Error::Busy`].
#[must_use = "the answer to its call is dropped with it"]
pub struct Posted<'c, T> {
    client: &'c mut Client,
    read: fn(Answer) -> T,
}

/// What a step comes to.
#[must_use]
pub enum Advanced<'c, T> {
    /// The call has ended with this result.
    Ended(Result<T, Error>),
    /// Nobody has served it yet.
    InFlight(Posted<'c, T>),
    /// It is served, and waits as msgop(2) and semop(2) say.
    Waiting(Posted<'c, T>),
}

/// Why a call hasn't ended.
enum Still {
    InFlight,
    Waiting,
}

impl Client {
    pub(crate) fn new(pid: u32, handle: Handle) -> Client {
        Client {
            handle,
            pid,
            time: 0,
            last: None,
            is_posted: false,
        }
    }

    /// The pid of its first process: its number plus 1. A process that it comes to later, by `begin`, `fork`, `clone_into` or
    /// `name`, has the pid that was given.
    pub fn pid(&self) -> u32 {
        self.pid
    }

    /// Its number, from 0 in the order of the service's clients, by which `fork`, `clone_into` and `interrupt_thread` name it.
    pub fn number(&self) -> u32 {
        self.pid - 1
    }

    /// Sets the time in seconds of the calls to come, which is 0 at first. The service's clock never goes back.
    pub fn set_time(&mut self, seconds: u64) {
        self.time = seconds;
    }

    /// Where the last call ended; None where there was none, or an allocation failed.
    pub fn last(&self) -> Option<Place> {
        self.last
    }

    /// Posts a call, and doesn't wait: any thread that calls a client of the service may serve it from now on.
    pub fn post<T>(&mut self, call: Call<T>) -> Result<Posted<'_, T>, Error> {
        let read = call.read;
        self.enter(call)?;
        Ok(Posted { client: self, read })
    }

    /// Makes a call, and waits for its answer.
    pub(crate) fn call<T>(&mut self, call: Call<T>) -> Result<T, Error> {
        self.post(call)?.wait()
    }

    fn enter<T>(&mut self, mut call: Call<T>) -> Result<(), Error> {
        self.end_dropped()?;
        call.request.clock = self.time;
        self.is_posted = match self.handle.post(&call.request, call.lists) {
            DONE => true,
            NO_MEMORY => {
                self.last = None;
                return Err(Error::NoMemory);
            }
            code => unreachable!("ipcsh_raw_post gave {code}"),
        };
        Ok(())
    }

    // Where a call whose `Posted` was dropped is still there, it ends first.
    pub(crate) fn end_dropped(&mut self) -> Result<(), Error> {
        while self.is_posted {
            match self.step() {
                Ok(_) => {}
                Err(Still::InFlight) => thread::yield_now(),
                Err(Still::Waiting) => return Err(Error::Busy),
            }
        }
        Ok(())
    }

    // One try to serve what is posted, and a look at the own call, which may have ended.
    fn step(&mut self) -> Result<Result<Answer, Error>, Still> {
        let mut answer = Answer::default();
        let mut code = self.handle.advance(&mut answer);
        if code == NO_ROOM {
            answer.make_room();
            code = self.handle.advance(&mut answer);
        }
        match code {
            DONE => Ok(self.ended(answer)),
            IN_FLIGHT => Err(Still::InFlight),
            WAITING => Err(Still::Waiting),
            _ => unreachable!("ipcsh_raw_advance gave {code}"),
        }
    }

    fn ended(&mut self, answer: Answer) -> Result<Answer, Error> {
        let (event, turn) = (answer.reply.place, answer.reply.turn);
        self.is_posted = false;
        self.last = (event > 0).then_some(Place { event, turn });
        Error::of_reply(&answer.reply).map_or(Ok(answer), Err)
    }
}

impl<'c, T> Posted<'c, T> {
    /// Tries once to serve what is posted, and looks whether the call has ended. It doesn't wait.
    pub fn advance(self) -> Advanced<'c, T> {
        match self.client.step() {
            Ok(result) => Advanced::Ended(result.map(self.read)),
            Err(Still::InFlight) => Advanced::InFlight(self),
            Err(Still::Waiting) => Advanced::Waiting(self),
        }
    }

    /// Waits until the call has ended. Its thread yields in between, and sleeps, at most a millisecond, where the call has
    /// waited for long. It ends by another client's call alone then, so this may never return.
    pub fn wait(self) -> Result<T, Error> {
        let mut looks = 0u32;
        loop {
            match self.client.step() {
                Ok(result) => return result.map(self.read),
                Err(still) => {
                    looks = looks.saturating_add(1);
                    pause(&still, looks);
                }
            }
        }
    }
}

impl fmt::Debug for Client {
    fn fmt(&self, f: &mut fmt::Formatter<'_>) -> fmt::Result {
        f.debug_struct("Client")
            .field("pid", &self.pid)
            .field("time", &self.time)
            .field("last", &self.last)
            .finish_non_exhaustive()
    }
}

impl<T> fmt::Debug for Posted<'_, T> {
    fn fmt(&self, f: &mut fmt::Formatter<'_>) -> fmt::Result {
        f.debug_tuple("Posted").field(&self.client).finish()
    }
}
