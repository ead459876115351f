//! Opening a server, and giving its passes and ports.

use crate::caller::Caller;
use crate::error::{done, Error};
use crate::port::Port;
use crate::raw::{self, Handle};
use std::ops::RangeInclusive;

/// A device of a server.
#[derive(Clone, Debug)]
pub struct Device {
    /// The id by which the IOMMU knows it: bus, device, function.
    pub source: u16,
    /// How many bits its addresses have: 39, 48 or 57.
    pub width: u8,
    /// Whether it has the interrupt range of x86.
    pub x86: bool,
    /// Whole pages that it keeps for itself, at most 16 spans.
    pub reserved: Vec<RangeInclusive<u64>>,
}

/// What a server is opened with. Users, files and devices are numbered from 1.
#[derive(Clone, Debug)]
pub struct Config {
    /// The frames of the pool: 1 to 4096.
    pub pool: u32,
    /// How many pinned pages each user may have.
    pub users: Vec<u64>,
    /// The user of each file.
    pub files: Vec<u16>,
    pub devices: Vec<Device>,
    /// One for each caller and each port: 1 to 1024.
    pub passes: u16,
    /// How many callers may ask at once: 1 to 64.
    pub lanes: u16,
    /// How many pages a port keeps translations of: 1 to 4096.
    pub cache: u16,
}

impl Config {
    fn device_rows(&self) -> Vec<raw::Device> {
        let row = |device: &Device| raw::Device {
            source: device.source,
            width: device.width,
            x86: device.x86.into(),
        };
        self.devices.iter().map(row).collect()
    }

    /// The spans of all devices. A device whose number is beyond 16 bits is beyond the limits, as device 0 is.
    fn reserved_rows(&self) -> Vec<raw::Reserved> {
        let numbered = self.devices.iter().zip(1_usize..);
        let spans = numbered.flat_map(|(device, number)| device.reserved.iter().map(move |span| (span, number)));
        let row = |(span, number): (&RangeInclusive<u64>, usize)| raw::Reserved {
            first: *span.start(),
            last: *span.end(),
            device: number.try_into().unwrap_or(0),
        };
        spans.map(row).collect()
    }
}

/// A server, by its first caller, who gives the passes and ports that nobody has yet. It lasts as long as the last of
/// its callers and ports.
pub struct Server {
    first: Caller,
}

impl Server {
    /// Opens a server. `Limits` says that a number of the configuration is outside its limits.
    pub fn open(config: &Config) -> Result<Server, Error> {
        let mut handle = Handle::closed();
        let (devices, reserved) = (config.device_rows(), config.reserved_rows());
        // SAFETY: each pointer and length are those of one slice.
        let status = unsafe {
            raw::defnulk_raw_open(
                config.pool,
                config.users.as_ptr(),
                config.users.len(),
                config.files.as_ptr(),
                config.files.len(),
                devices.as_ptr(),
                devices.len(),
                reserved.as_ptr(),
                reserved.len(),
                config.passes,
                config.lanes,
                config.cache,
                &mut handle,
            )
        };
        done(status)?;
        Ok(Server {
            first: Caller { handle },
        })
    }

    /// The first caller.
    pub fn caller(&mut self) -> &mut Caller {
        &mut self.first
    }

    /// Another caller, by a pass that nobody has.
    pub fn share(&mut self) -> Result<Caller, Error> {
        let mut handle = Handle::closed();
        done(raw::defnulk_raw_share(&mut self.first.handle, &mut handle))?;
        Ok(Caller { handle })
    }

    /// The port of the last device that has none, by a pass that nobody has; and the device's number.
    pub fn port(&mut self) -> Result<(usize, Port), Error> {
        let (mut handle, mut device) = (Handle::closed(), 0);
        done(raw::defnulk_raw_port(&mut self.first.handle, &mut handle, &mut device))?;
        Ok((device, Port::of(handle)))
    }
}
