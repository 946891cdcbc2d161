//! A handle of the library for C, whose every duty these functions keep. It is the only module that calls it.

use crate::raw::{Answer, Lists, RawClient, RawLimits, RawObject, RawReply, Request};
use crate::semaphores::SemOp;
use std::ptr::{self, NonNull};

/// What is behind a handle.
#[repr(C)]
struct Seat {
    _opaque: [u8; 0],
}

// `include/ipcsh.h` has the same, each slice as a pointer and a length.
unsafe extern "C" {
    fn ipcsh_raw_open(
        limits: *const RawLimits,
        clients: *const RawClient,
        clients_len: usize,
        handles: *mut *mut Seat,
        handles_len: usize,
    ) -> i32;

    fn ipcsh_raw_post(
        handle: *mut Seat,
        request: *const Request,
        text: *const u8,
        text_len: usize,
        ops: *const SemOp,
        ops_len: usize,
        values: *const u16,
        values_len: usize,
        groups: *const u32,
        groups_len: usize,
    ) -> i32;

    fn ipcsh_raw_advance(
        handle: *mut Seat,
        reply: *mut RawReply,
        bytes: *mut u8,
        bytes_len: usize,
        values: *mut u16,
        values_len: usize,
        objects: *mut RawObject,
        objects_len: usize,
    ) -> i32;

    fn ipcsh_raw_read_journal(
        handle: *mut Seat,
        count: *mut u64,
        bytes: *mut u8,
        bytes_len: usize,
    ) -> i32;

    fn ipcsh_raw_close(handle: *mut Seat) -> i32;
}

/// A handle that is open, and closed when it is dropped.
pub(crate) struct Handle(NonNull<Seat>);

// SAFETY: a handle may go from thread to thread, where they order its uses as a move of a value does. It isn't `Sync`, and
// is lent to one function at a time.
unsafe impl Send for Handle {}

/// Opens a service for these clients: a handle for each, or the library's code.
pub(crate) fn open(limits: &RawLimits, clients: &[RawClient]) -> Result<Vec<Handle>, i32> {
    let mut handles = vec![ptr::null_mut(); clients.len()];
    // SAFETY: the pointers are those of references and slices, whose lengths are given.
    let code = unsafe {
        ipcsh_raw_open(
            limits,
            clients.as_ptr(),
            clients.len(),
            handles.as_mut_ptr(),
            handles.len(),
        )
    };
    if code != 0 {
        return Err(code);
    }
    let opened = handles
        .into_iter()
        .map(|handle| NonNull::new(handle).expect("a handle for each client"));
    Ok(opened.map(Handle).collect())
}

impl Handle {
    /// Posts a call, and gives the library's code.
    pub(crate) fn post(&mut self, request: &Request, lists: Lists) -> i32 {
        let Lists {
            text,
            ops,
            values,
            groups,
        } = lists;
        // SAFETY: the handle is open and lent to this call alone; the other pointers are those of references and slices,
        // whose lengths are given.
        unsafe {
            ipcsh_raw_post(
                self.0.as_ptr(),
                request,
                text.as_ptr(),
                text.len(),
                ops.as_ptr(),
                ops.len(),
                values.as_ptr(),
                values.len(),
                groups.as_ptr(),
                groups.len(),
            )
        }
    }

    /// Goes on with the call, which may be answered, and gives the library's code.
    pub(crate) fn advance(&mut self, answer: &mut Answer) -> i32 {
        let Answer {
            reply,
            bytes,
            values,
            objects,
        } = answer;
        // SAFETY: as in `post`; what is written to is lent to this call alone.
        unsafe {
            ipcsh_raw_advance(
                self.0.as_ptr(),
                reply,
                bytes.as_mut_ptr(),
                bytes.len(),
                values.as_mut_ptr(),
                values.len(),
                objects.as_mut_ptr(),
                objects.len(),
            )
        }
    }

    /// Reads on in the text of the journal: how many bytes, or the library's code.
    pub(crate) fn read_journal(&mut self, bytes: &mut [u8]) -> Result<usize, i32> {
        let mut count = 0;
        // SAFETY: as in `advance`.
        let code = unsafe {
            ipcsh_raw_read_journal(self.0.as_ptr(), &mut count, bytes.as_mut_ptr(), bytes.len())
        };
        match code {
            0 => Ok(usize::try_from(count).expect("no more than there is room for")),
            code => Err(code),
        }
    }
}

impl Drop for Handle {
    fn drop(&mut self) {
        // SAFETY: the handle is open, and nothing uses it after its drop.
        unsafe { ipcsh_raw_close(self.0.as_ptr()) };
    }
}
