//! A device's port: its accesses, its translations, and its turns.

use crate::error::{done, told, Error};
use crate::raw::{self, Handle, Outcome};
use std::cell::RefCell;
use std::marker::PhantomData;

const EFAULT: i32 = 14;

/// Which right an access needs.
#[derive(Clone, Copy, PartialEq, Eq, Debug)]
pub enum Access {
    Read,
    Write,
}

/// In which frame a device has a page, and what it may do there. It is good as long as the device isn't flushed,
/// attached or detached, and so it borrows the port.
#[derive(Clone, Copy, Debug)]
pub struct Translation<'port> {
    frame: u32,
    readable: bool,
    writeable: bool,
    port: PhantomData<&'port Port>,
}

impl Translation<'_> {
    /// The number of the page's frame in the pool.
    pub fn frame(&self) -> u32 {
        self.frame
    }

    /// Whether the device may do this there.
    pub fn allows(&self, access: Access) -> bool {
        match access {
            Access::Read => self.readable,
            Access::Write => self.writeable,
        }
    }
}

/// Where a read or a write of a port ended: how many bytes had passed, and why no more.
#[derive(Clone, Copy, PartialEq, Eq, Debug)]
pub struct Stopped {
    pub done: usize,
    pub error: Error,
}

/// The port of a device. It is closed when it is dropped, and no other port of the device can be had then.
pub struct Port {
    handle: RefCell<Handle>,
}

impl Port {
    pub(crate) fn of(handle: Handle) -> Port {
        Port {
            handle: RefCell::new(handle),
        }
    }

    /// Reads or writes, by a call that tells how many bytes passed.
    fn access(&self, call: impl FnOnce(&mut Handle, &mut Outcome) -> i32) -> Result<(), Stopped> {
        let mut out = Outcome::default();
        let status = call(&mut self.handle.borrow_mut(), &mut out);
        let stopped = |error| Stopped {
            done: out.value as usize,
            error,
        };
        told(status, &out).map(drop).map_err(stopped)
    }

    /// Takes a turn of the device, which nobody has a translation of.
    fn turn(&mut self, call: impl FnOnce(&mut Handle, &mut Outcome) -> i32) -> Result<u64, Error> {
        let mut out = Outcome::default();
        let status = call(self.handle.get_mut(), &mut out);
        told(status, &out)
    }

    /// The device reads bytes. Where it stops at `NotNow` it goes on with the rest.
    pub fn read(&self, iova: u64, buffer: &mut [u8]) -> Result<(), Stopped> {
        // SAFETY: pointer and length are those of one slice.
        self.access(|handle, out| unsafe {
            raw::defnulk_raw_port_read(handle, iova, buffer.as_mut_ptr(), buffer.len(), out)
        })
    }

    /// The device writes bytes. Where it stops at `NotNow` it goes on with the rest.
    pub fn write(&self, iova: u64, bytes: &[u8]) -> Result<(), Stopped> {
        // SAFETY: pointer and length are those of one slice.
        self.access(|handle, out| unsafe {
            raw::defnulk_raw_port_write(handle, iova, bytes.as_ptr(), bytes.len(), out)
        })
    }

    /// In which frame the device has the page of an address, with the right that the access needs; `None` where nothing
    /// that it may use maps the page so. While the translation is kept, the frame is given to nobody else.
    pub fn translate(&self, iova: u64, access: Access) -> Result<Option<Translation<'_>>, Error> {
        let (mut handle, mut to) = (self.handle.borrow_mut(), raw::Translation::default());
        let write = access == Access::Write;
        let status = raw::defnulk_raw_port_translate(&mut handle, iova, write.into(), &mut to);
        if status == -EFAULT {
            return Ok(None);
        }
        done(status)?;
        Ok(Some(Translation {
            frame: to.frame,
            readable: to.readable != 0,
            writeable: to.writeable != 0,
            port: PhantomData,
        }))
    }

    /// The device has forgotten what it had cached.
    pub fn flush(&mut self) -> Result<(), Error> {
        self.turn(|handle, out| raw::defnulk_raw_port_flush(handle, out))
            .map(drop)
    }

    /// Attaches the device to an address space or a page table, and answers the id of the page table.
    pub fn attach(&mut self, pt_id: u32) -> Result<u32, Error> {
        self.turn(|handle, out| raw::defnulk_raw_port_attach(handle, pt_id, out))
            .map(|id| id as u32)
    }

    /// Ends the device's attachment.
    pub fn detach(&mut self) -> Result<(), Error> {
        self.turn(|handle, out| raw::defnulk_raw_port_detach(handle, out))
            .map(drop)
    }
}
