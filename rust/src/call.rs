//! A call as a value, and the table form in which the calls stand.

use crate::raw::{Answer, Lists, Request};

/// A call with its arguments, which is answered by a `T`. [`Client::post`](crate::Client::post) makes it; its functions have
/// the names of the client's own, which make a call and wait for its answer.
#[must_use = "Client::post makes it"]
pub struct Call<'a, T> {
    pub(crate) request: Request,
    pub(crate) lists: Lists<'a>,
    pub(crate) read: fn(Answer) -> T,
}

impl<'a, T> Call<'a, T> {
    pub(crate) fn new(request: Request, read: fn(Answer) -> T) -> Call<'a, T> {
        Call {
            request,
            lists: Lists::default(),
            read,
        }
    }

    pub(crate) fn with_lists(self, lists: Lists<'a>) -> Call<'a, T> {
        Call { lists, ..self }
    }
}

/// Of each call that stands in it, with its arguments, its answer and what it is made of: a function of `Call`, and a method of
/// `Client` that makes the call and waits for its answer.
macro_rules! calls {
    ($($(#[$doc:meta])* fn $name:ident($($arg:ident: $type:ty),*) -> $answer:ty = $call:expr;)*) => {
        impl $crate::client::Client {
            $(
                $(#[$doc])*
                #[allow(clippy::extra_unused_lifetimes, reason = "not every call takes a list")]
                pub fn $name<'a>(&mut self, $($arg: $type),*) -> Result<$answer, $crate::error::Error> {
                    self.call($crate::call::Call::$name($($arg),*))
                }
            )*
        }

        $(
            impl<'a> $crate::call::Call<'a, $answer> {
                $(#[$doc])*
                pub fn $name($($arg: $type),*) -> Self {
                    $call
                }
            }
        )*
    };
}

pub(crate) use calls;
