//! The calls of ioctl by which an address space is made and mapped, with the structures of linux/iommufd.h.

use crate::caller::Caller;
use crate::error::Error;
use crate::raw::LEAST_ROOM;

const IOAS_ALLOC: u32 = 0x3b81;
const IOAS_MAP: u32 = 0x3b85;
const IOAS_UNMAP: u32 = 0x3b86;

/// A flag of a map: at this very address.
pub const FIXED_IOVA: u32 = 1;

/// A flag of a map: devices may write there.
pub const WRITEABLE: u32 = 2;

/// A flag of a map: devices may read there.
pub const READABLE: u32 = 4;

/// What is mapped, and where.
#[derive(Clone, Copy, Debug)]
pub struct Map {
    pub flags: u32,
    pub ioas: u32,
    pub user_va: u64,
    pub length: u64,
    pub iova: u64,
}

/// A structure: its fields of four bytes, and behind them those of eight. Its size, the first field, stands before.
fn structure(words: &[u32], long_words: &[u64]) -> Vec<u8> {
    let size = 4 + 4 * words.len() + 8 * long_words.len();
    let mut bytes = (size as u32).to_le_bytes().to_vec();
    bytes.extend(words.iter().flat_map(|word| word.to_le_bytes()));
    bytes.extend(long_words.iter().flat_map(|word| word.to_le_bytes()));
    bytes
}

/// The field of so many bytes at this place.
fn field<const N: usize>(room: &[u8], at: usize) -> [u8; N] {
    let mut bytes = [0; N];
    bytes.copy_from_slice(&room[at..at + N]);
    bytes
}

impl Caller {
    /// IOAS_ALLOC: makes an address space in the file, and answers its id.
    pub fn ioas_alloc(&mut self, file: u16) -> Result<u32, Error> {
        let mut room = [0; LEAST_ROOM];
        self.ioctl(file, IOAS_ALLOC, &structure(&[0, 0], &[]), &mut room)?;
        Ok(u32::from_le_bytes(field(&room, 8)))
    }

    /// IOAS_MAP: maps pages of the file's user, and answers at which address.
    pub fn ioas_map(&mut self, file: u16, map: Map) -> Result<u64, Error> {
        let mut room = [0; LEAST_ROOM];
        let bytes = structure(&[map.flags, map.ioas, 0], &[map.user_va, map.length, map.iova]);
        self.ioctl(file, IOAS_MAP, &bytes, &mut room)?;
        Ok(u64::from_le_bytes(field(&room, 32)))
    }

    /// IOAS_UNMAP: unmaps the areas of a span, and answers how many bytes they had. EAGAIN, or after many tries
    /// EDEADLK, says that somebody still uses them, and it has to be called again.
    pub fn ioas_unmap(&mut self, file: u16, ioas: u32, iova: u64, length: u64) -> Result<u64, Error> {
        let mut room = [0; LEAST_ROOM];
        self.ioctl(file, IOAS_UNMAP, &structure(&[ioas], &[iova, length]), &mut room)?;
        Ok(u64::from_le_bytes(field(&room, 16)))
    }
}
