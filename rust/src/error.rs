//! Why a call has no answer, and why a service isn't opened.

use crate::raw::RawReply;
use crate::rules::Rule;
use std::{error, fmt, io};

/// Linux's numbers (errno(3)).
const ENOMEM: i32 = 12;
const EBUSY: i32 = 16;
pub(crate) const EINVAL: i32 = 22;

/// Why a call has no answer.
#[derive(Clone, Copy, Debug, PartialEq, Eq)]
#[non_exhaustive]
pub enum Error {
    /// The service refuses the call.
    Refused {
        /// Linux's number of the error (errno(3)).
        errno: i32,
        /// The rule by which it is refused.
        rule: Rule,
    },
    /// An allocation in the service fails (ENOMEM). Nothing has changed.
    NoMemory,
    /// A call of the client whose [`Posted`](crate::Posted) was dropped still waits (EBUSY). Nothing has changed.
    Busy,
}

impl Error {
    /// Linux's number (errno(3)).
    pub fn errno(self) -> i32 {
        match self {
            Error::Refused { errno, .. } => errno,
            Error::NoMemory => ENOMEM,
            Error::Busy => EBUSY,
        }
    }

    /// The rule by which the service refuses the call, if it does.
    pub fn rule(self) -> Option<Rule> {
        match self {
            Error::Refused { rule, .. } => Some(rule),
            Error::NoMemory | Error::Busy => None,
        }
    }

    /// Why this reply is none, if it isn't.
    pub(crate) fn of_reply(reply: &RawReply) -> Option<Error> {
        if reply.errno == 0 {
            return None;
        }
        Some(match Rule::from_code(reply.rule) {
            Some(rule) => Error::Refused {
                errno: reply.errno as i32,
                rule,
            },
            None => Error::NoMemory,
        })
    }
}

/// As errno(3) tells it, with the rule: `Permission denied (os error 13): owner-bits`.
impl fmt::Display for Error {
    fn fmt(&self, f: &mut fmt::Formatter<'_>) -> fmt::Result {
        let error = io::Error::from(*self);
        match self {
            Error::Refused { rule, .. } => write!(f, "{error}: {rule}"),
            Error::NoMemory => error.fmt(f),
            Error::Busy => write!(f, "{error}: an earlier call of the client waits"),
        }
    }
}

impl error::Error for Error {}

/// The error of the operating system with its number.
impl From<Error> for io::Error {
    fn from(error: Error) -> io::Error {
        io::Error::from_raw_os_error(error.errno())
    }
}

/// Why a service isn't opened.
#[derive(Clone, Copy, Debug, PartialEq, Eq)]
#[non_exhaustive]
pub enum OpenError {
    /// A limit isn't in its range (EINVAL).
    BadLimits,
    /// There are none or more than 64 clients, or one has more than 32 supplementary groups (EINVAL).
    BadClients,
    /// An allocation fails (ENOMEM).
    NoMemory,
}

impl OpenError {
    /// That of the library's code.
    pub(crate) fn of_code(code: i32) -> OpenError {
        match code {
            -7 => OpenError::NoMemory,
            -8 => OpenError::BadLimits,
            -9 => OpenError::BadClients,
            _ => unreachable!("ipcsh_raw_open gave {code}"),
        }
    }
}

impl fmt::Display for OpenError {
    fn fmt(&self, f: &mut fmt::Formatter<'_>) -> fmt::Result {
        f.write_str(match self {
            OpenError::BadLimits => "a limit isn't in its range",
            OpenError::BadClients => {
                "there are none or more than 64 clients, or one has more than 32 groups"
            }
            OpenError::NoMemory => "an allocation fails",
        })
    }
}

impl error::Error for OpenError {}

/// The error of the operating system with its number.
impl From<OpenError> for io::Error {
    fn from(error: OpenError) -> io::Error {
        io::Error::from_raw_os_error(match error {
            OpenError::BadLimits | OpenError::BadClients => EINVAL,
            OpenError::NoMemory => ENOMEM,
        })
    }
}
