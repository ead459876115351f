//! Why a call didn't do what it was asked for.

use crate::raw::{self, Outcome};
use std::fmt;
use std::thread;

const ENOMEM: i32 = 12;
const EFAULT: i32 = 14;
const EINVAL: i32 = 22;
const ENFILE: i32 = 23;

/// Why a call didn't do what it was asked for.
#[derive(Clone, Copy, PartialEq, Eq, Debug)]
pub enum Error {
    /// The call can't be served now, and has to be made again.
    NotNow,
    /// There was no memory.
    NoMemory,
    /// A number is outside the limits that the call names.
    Limits,
    /// No pass is left, or no device without a port.
    NoneLeft,
    /// The server refused it, for the cause of this number (`Cause` in crates/iofd_words/src/refusal.rt).
    Refused { errno: i32, cause: u16 },
    /// The IOMMU denied the access, for the reason of this number: 2, 4, 5 or 6.
    Denied { reason: u16 },
    /// The call of ioctl has this errno.
    Ioctl { errno: i32 },
}

impl Error {
    /// What the call of C answers: the negative number of the errno, or that the call has to be made again.
    pub fn status(self) -> i32 {
        match self {
            Error::NotNow => raw::NOT_NOW,
            Error::NoMemory => -ENOMEM,
            Error::Limits => -EINVAL,
            Error::NoneLeft => -ENFILE,
            Error::Refused { errno, .. } | Error::Ioctl { errno } => -errno,
            Error::Denied { .. } => -EFAULT,
        }
    }
}

impl fmt::Display for Error {
    fn fmt(&self, f: &mut fmt::Formatter<'_>) -> fmt::Result {
        match self {
            Error::NotNow => write!(f, "it can't be served now"),
            Error::NoMemory => write!(f, "there is no memory"),
            Error::Limits => write!(f, "a number is outside its limits"),
            Error::NoneLeft => write!(f, "no pass or no device is left"),
            Error::Refused { errno, cause } => write!(f, "it is refused for cause {cause}, errno {errno}"),
            Error::Denied { reason } => write!(f, "the IOMMU denied it for reason {reason}"),
            Error::Ioctl { errno } => write!(f, "the ioctl has errno {errno}"),
        }
    }
}

impl std::error::Error for Error {}

/// What a status other than 0 and an outcome say. A handle that is open and of the right kind, as each is that a caller
/// or a port has, leads to no other.
fn error_of(status: i32, out: &Outcome) -> Error {
    match -status {
        _ if status == raw::NOT_NOW => Error::NotNow,
        _ if out.fault != 0 => Error::Denied { reason: out.fault },
        ENOMEM if out.cause == 0 => Error::NoMemory,
        EINVAL if out.cause == 0 => Error::Limits,
        ENFILE if out.cause == 0 => Error::NoneLeft,
        errno => Error::Refused {
            errno,
            cause: out.cause,
        },
    }
}

/// The value of a call with this status and outcome.
pub(crate) fn told(status: i32, out: &Outcome) -> Result<u64, Error> {
    match status {
        0 => Ok(out.value),
        _ => Err(error_of(status, out)),
    }
}

/// The same of a call without an outcome.
pub(crate) fn done(status: i32) -> Result<(), Error> {
    told(status, &Outcome::default()).map(drop)
}

/// The same of an ioctl.
pub(crate) fn ioctl_done(status: i32) -> Result<(), Error> {
    match status {
        0 => Ok(()),
        raw::NOT_NOW => Err(Error::NotNow),
        _ => Err(Error::Ioctl { errno: -status }),
    }
}

/// Makes a call, again and again while it isn't served.
pub fn again<T>(mut call: impl FnMut() -> Result<T, Error>) -> Result<T, Error> {
    loop {
        match call() {
            Err(Error::NotNow) => thread::yield_now(),
            served => return served,
        }
    }
}
