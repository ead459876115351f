//! The proved iommufd server (`include/defnulk_iommufd.h`) for Rust.
//!
//! A [`Server`] has frames, users, files and devices. Its [`Caller`]s map memory and make the calls of ioctl, and each
//! device's accesses go by its [`Port`]. No call waits: [`Error::NotNow`] says that one has to be made again, as
//! [`again`] does.
//!
//! What the header asks of a program in C is said here by types:
//!
//! - A handle is in one call at a time: callers and ports may go to another thread, and can't be shared with one.
//!
//!   ```compile_fail,E0277
//!   fn is_shared_with_threads<T: Sync>() {}
//!   is_shared_with_threads::<defnulk_iommufd::Port>();
//!   ```
//!
//! - A translation is good until the device is flushed, attached or detached by its port: it borrows the port, and
//!   these three need the port for themselves.
//!
//!   ```compile_fail,E0502
//!   use defnulk_iommufd::{Access, Error, Port};
//!
//!   fn flush_too_early(port: &mut Port) -> Result<u32, Error> {
//!       let kept = port.translate(0x1000, Access::Read)?;
//!       port.flush()?;
//!       Ok(kept.map_or(0, |translation| translation.frame()))
//!   }
//!   ```
//!
//! - Handles, arrays and places for results are there and don't overlap: they are references and slices.

mod caller;
mod error;
mod port;
mod raw;
mod server;
mod structures;

pub use caller::Caller;
pub use error::{again, Error};
pub use port::{Access, Port, Stopped, Translation};
pub use server::{Config, Device, Server};
pub use structures::{Map, FIXED_IOVA, READABLE, WRITEABLE};
