//! A caller of a server: the calls of ioctl, users' memory, devices, access objects, and the journal.

use crate::error::{done, ioctl_done, told, Error};
use crate::raw::{self, Handle, Outcome, Span};
use std::ops::RangeInclusive;

/// A caller of a server. It is closed when it is dropped.
pub struct Caller {
    pub(crate) handle: Handle,
}

impl Caller {
    /// Makes a call, which tells its value beside its status.
    fn call(&mut self, call: impl FnOnce(&mut Handle, &mut Outcome) -> i32) -> Result<u64, Error> {
        let mut out = Outcome::default();
        let status = call(&mut self.handle, &mut out);
        told(status, &out)
    }

    /// The same of one that tells nothing else.
    fn act(&mut self, call: impl FnOnce(&mut Handle, &mut Outcome) -> i32) -> Result<(), Error> {
        self.call(call).map(drop)
    }

    /// The same of one that tells an id, or the number of a frame.
    fn number(&mut self, call: impl FnOnce(&mut Handle, &mut Outcome) -> i32) -> Result<u32, Error> {
        self.call(call).map(|value| value as u32)
    }

    /// Carries out a call of ioctl of a file: its structure, and behind it the array that the kernel reads by a
    /// pointer. What is written back stands at the front of `room`, which has 64 bytes or more; the answer is how many
    /// bytes that is, which may be more than there is room for.
    pub fn ioctl(&mut self, file: u16, number: u32, bytes: &[u8], room: &mut [u8]) -> Result<usize, Error> {
        let mut written = 0;
        // SAFETY: each pointer and length are those of one slice.
        let status = unsafe {
            raw::defnulk_raw_ioctl(
                &mut self.handle,
                file,
                number,
                bytes.as_ptr(),
                bytes.len(),
                room.as_mut_ptr(),
                room.len(),
                &mut written,
            )
        };
        ioctl_done(status)?;
        Ok(written)
    }

    /// Gives a user a page at this address, and answers the number of its frame.
    pub fn user_map(&mut self, user: u16, va: u64) -> Result<u32, Error> {
        self.number(|handle, out| raw::defnulk_raw_user_map(handle, user, va, out))
    }

    /// Takes a user's page away.
    pub fn user_unmap(&mut self, user: u16, va: u64) -> Result<(), Error> {
        self.act(|handle, out| raw::defnulk_raw_user_unmap(handle, user, va, out))
    }

    /// A user writes 1 to 64 bytes of its memory, in one page.
    pub fn user_write(&mut self, user: u16, va: u64, bytes: &[u8]) -> Result<(), Error> {
        // SAFETY: pointer and length are those of one slice.
        self.act(|handle, out| unsafe {
            raw::defnulk_raw_user_write(handle, user, va, bytes.as_ptr(), bytes.len(), out)
        })
    }

    /// A user reads 1 to 64 bytes of its memory, in one page.
    pub fn user_read(&mut self, user: u16, va: u64, buffer: &mut [u8]) -> Result<(), Error> {
        // SAFETY: pointer and length are those of one slice.
        self.act(|handle, out| unsafe {
            raw::defnulk_raw_user_read(handle, user, va, buffer.as_mut_ptr(), buffer.len(), out)
        })
    }

    /// Binds a device to a file, and answers the id of its object.
    pub fn bind(&mut self, file: u16, device: u16) -> Result<u32, Error> {
        self.number(|handle, out| raw::defnulk_raw_bind(handle, file, device, out))
    }

    /// Takes the device of this id away from its file.
    pub fn unbind(&mut self, file: u16, id: u32) -> Result<(), Error> {
        self.act(|handle, out| raw::defnulk_raw_unbind(handle, file, id, out))
    }

    /// Closes a file.
    pub fn close_file(&mut self, file: u16) -> Result<(), Error> {
        self.act(|handle, out| raw::defnulk_raw_close_file(handle, file, out))
    }

    /// How many pinned pages a user has.
    pub fn held(&mut self, user: u16) -> Result<u64, Error> {
        self.call(|handle, out| raw::defnulk_raw_held(handle, user, out))
    }

    /// How many frames of the pool are free.
    pub fn free_frames(&mut self) -> Result<u64, Error> {
        self.call(|handle, out| raw::defnulk_raw_free_frames(handle, out))
    }

    /// Makes an access object in a file, and answers its id.
    pub fn access_create(&mut self, file: u16) -> Result<u32, Error> {
        self.number(|handle, out| raw::defnulk_raw_access_create(handle, file, out))
    }

    /// Attaches an access object to an address space.
    pub fn access_attach(&mut self, file: u16, access: u32, ioas: u32) -> Result<(), Error> {
        self.act(|handle, out| raw::defnulk_raw_access_attach(handle, file, access, ioas, out))
    }

    /// Ends its attachment.
    pub fn access_detach(&mut self, file: u16, access: u32) -> Result<(), Error> {
        self.act(|handle, out| raw::defnulk_raw_access_detach(handle, file, access, out))
    }

    /// Pins whole pages of its address space, for writes too or for reads alone.
    pub fn access_pin(&mut self, file: u16, access: u32, iova: u64, length: u64, write: bool) -> Result<(), Error> {
        self.act(|handle, out| raw::defnulk_raw_access_pin(handle, file, access, iova, length, write.into(), out))
    }

    /// Takes one of its pins of just these pages away.
    pub fn access_unpin(&mut self, file: u16, access: u32, iova: u64, length: u64, write: bool) -> Result<(), Error> {
        self.act(|handle, out| raw::defnulk_raw_access_unpin(handle, file, access, iova, length, write.into(), out))
    }

    /// Writes 1 to 64 bytes at an address that one of its pins for writes covers.
    pub fn access_write(&mut self, file: u16, access: u32, iova: u64, bytes: &[u8]) -> Result<(), Error> {
        // SAFETY: pointer and length are those of one slice.
        self.act(|handle, out| unsafe {
            raw::defnulk_raw_access_write(handle, file, access, iova, bytes.as_ptr(), bytes.len(), out)
        })
    }

    /// Reads 1 to 64 bytes at an address that one of its pins covers.
    pub fn access_read(&mut self, file: u16, access: u32, iova: u64, buffer: &mut [u8]) -> Result<(), Error> {
        // SAFETY: pointer and length are those of one slice.
        self.act(|handle, out| unsafe {
            raw::defnulk_raw_access_read(handle, file, access, iova, buffer.as_mut_ptr(), buffer.len(), out)
        })
    }

    /// The leaving areas in which an access object holds a pin, by rising start.
    pub fn notices(&mut self, file: u16, access: u32) -> Result<Vec<RangeInclusive<u64>>, Error> {
        let mut spans = Vec::new();
        loop {
            // SAFETY: pointer and length are those of one slice.
            let count = self.call(|handle, out| unsafe {
                raw::defnulk_raw_notices(handle, file, access, spans.as_mut_ptr(), spans.len(), out)
            })? as usize;
            let are_all = count <= spans.len();
            spans.resize(count, Span::default());
            if are_all {
                return Ok(spans.iter().map(|span| span.first..=span.last).collect());
            }
        }
    }

    /// The journal of all records so far.
    pub fn journal(&mut self) -> Result<Vec<u8>, Error> {
        let (mut room, mut written) = (Vec::new(), 0);
        loop {
            // SAFETY: pointer and length are those of one slice.
            done(unsafe { raw::defnulk_raw_journal(&mut self.handle, room.as_mut_ptr(), room.len(), &mut written) })?;
            let is_whole = written <= room.len();
            room.resize(written, 0);
            if is_whole {
                return Ok(room);
            }
        }
    }
}
