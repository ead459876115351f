//! The exports, as `include/defnulk_iommufd.h` declares them.

use std::ffi::c_void;
use std::ptr;

/// The status of a call that has to be made again.
pub const NOT_NOW: i32 = -4096;

/// The least room for what an ioctl writes back.
pub const LEAST_ROOM: usize = 64;

/// A handle. Nobody but the exports writes it, or makes one that is open.
#[repr(C)]
pub struct Handle {
    at: *mut c_void,
}

// SAFETY: another thread may use a handle once that is ordered, and whoever has it there has it alone.
unsafe impl Send for Handle {}

impl Handle {
    pub fn closed() -> Handle {
        Handle { at: ptr::null_mut() }
    }
}

impl Drop for Handle {
    fn drop(&mut self) {
        // One that is closed is told to be, and stays so.
        defnulk_raw_close(self);
    }
}

#[repr(C)]
#[derive(Default)]
pub struct Outcome {
    pub at: u64,
    pub value: u64,
    pub made: u32,
    pub cause: u16,
    pub fault: u16,
}

#[repr(C)]
pub struct Device {
    pub source: u16,
    pub width: u8,
    pub x86: u8,
}

#[repr(C)]
pub struct Reserved {
    pub first: u64,
    pub last: u64,
    pub device: u16,
}

#[repr(C)]
#[derive(Clone, Copy, Default)]
pub struct Span {
    pub first: u64,
    pub last: u64,
}

#[repr(C)]
#[derive(Clone, Copy, Default)]
pub struct Translation {
    pub frame: u32,
    pub readable: u8,
    pub writeable: u8,
}

// SAFETY: the functions and structures are those of the header. Each export is proved safe for every number, and every
// handle that is open or closed, and a `Handle` is one of these. So those without arrays are safe to call; of the
// others a caller owes that pointer and length are those of one slice.
unsafe extern "C" {
    pub unsafe fn defnulk_raw_open(
        pool: u32,
        users: *const u64,
        user_count: usize,
        files: *const u16,
        file_count: usize,
        devices: *const Device,
        device_count: usize,
        reserved: *const Reserved,
        reserved_count: usize,
        passes: u16,
        lanes: u16,
        cache: u16,
        handle: &mut Handle,
    ) -> i32;
    pub safe fn defnulk_raw_share(handle: &mut Handle, other: &mut Handle) -> i32;
    pub safe fn defnulk_raw_port(handle: &mut Handle, other: &mut Handle, device: &mut usize) -> i32;
    pub safe fn defnulk_raw_close(handle: &mut Handle) -> i32;
    pub unsafe fn defnulk_raw_ioctl(
        handle: &mut Handle,
        file: u16,
        number: u32,
        bytes: *const u8,
        len: usize,
        room: *mut u8,
        room_len: usize,
        written: &mut usize,
    ) -> i32;
    pub safe fn defnulk_raw_user_map(handle: &mut Handle, user: u16, va: u64, out: &mut Outcome) -> i32;
    pub safe fn defnulk_raw_user_unmap(handle: &mut Handle, user: u16, va: u64, out: &mut Outcome) -> i32;
    pub unsafe fn defnulk_raw_user_write(
        handle: &mut Handle,
        user: u16,
        va: u64,
        bytes: *const u8,
        len: usize,
        out: &mut Outcome,
    ) -> i32;
    pub unsafe fn defnulk_raw_user_read(
        handle: &mut Handle,
        user: u16,
        va: u64,
        buffer: *mut u8,
        len: usize,
        out: &mut Outcome,
    ) -> i32;
    pub safe fn defnulk_raw_bind(handle: &mut Handle, file: u16, device: u16, out: &mut Outcome) -> i32;
    pub safe fn defnulk_raw_unbind(handle: &mut Handle, file: u16, id: u32, out: &mut Outcome) -> i32;
    pub safe fn defnulk_raw_close_file(handle: &mut Handle, file: u16, out: &mut Outcome) -> i32;
    pub safe fn defnulk_raw_access_create(handle: &mut Handle, file: u16, out: &mut Outcome) -> i32;
    pub safe fn defnulk_raw_access_attach(
        handle: &mut Handle,
        file: u16,
        access: u32,
        ioas: u32,
        out: &mut Outcome,
    ) -> i32;
    pub safe fn defnulk_raw_access_detach(handle: &mut Handle, file: u16, access: u32, out: &mut Outcome) -> i32;
    pub safe fn defnulk_raw_access_pin(
        handle: &mut Handle,
        file: u16,
        access: u32,
        iova: u64,
        length: u64,
        write: u8,
        out: &mut Outcome,
    ) -> i32;
    pub safe fn defnulk_raw_access_unpin(
        handle: &mut Handle,
        file: u16,
        access: u32,
        iova: u64,
        length: u64,
        write: u8,
        out: &mut Outcome,
    ) -> i32;
    pub unsafe fn defnulk_raw_access_write(
        handle: &mut Handle,
        file: u16,
        access: u32,
        iova: u64,
        bytes: *const u8,
        len: usize,
        out: &mut Outcome,
    ) -> i32;
    pub unsafe fn defnulk_raw_access_read(
        handle: &mut Handle,
        file: u16,
        access: u32,
        iova: u64,
        buffer: *mut u8,
        len: usize,
        out: &mut Outcome,
    ) -> i32;
    pub unsafe fn defnulk_raw_notices(
        handle: &mut Handle,
        file: u16,
        access: u32,
        spans: *mut Span,
        count: usize,
        out: &mut Outcome,
    ) -> i32;
    pub safe fn defnulk_raw_held(handle: &mut Handle, user: u16, out: &mut Outcome) -> i32;
    pub safe fn defnulk_raw_free_frames(handle: &mut Handle, out: &mut Outcome) -> i32;
    pub unsafe fn defnulk_raw_journal(handle: &mut Handle, room: *mut u8, room_len: usize, written: &mut usize) -> i32;
    pub unsafe fn defnulk_raw_port_read(
        handle: &mut Handle,
        iova: u64,
        buffer: *mut u8,
        len: usize,
        out: &mut Outcome,
    ) -> i32;
    pub unsafe fn defnulk_raw_port_write(
        handle: &mut Handle,
        iova: u64,
        bytes: *const u8,
        len: usize,
        out: &mut Outcome,
    ) -> i32;
    pub safe fn defnulk_raw_port_translate(
        handle: &mut Handle,
        iova: u64,
        write: u8,
        translation: &mut Translation,
    ) -> i32;
    pub safe fn defnulk_raw_port_flush(handle: &mut Handle, out: &mut Outcome) -> i32;
    pub safe fn defnulk_raw_port_attach(handle: &mut Handle, pt_id: u32, out: &mut Outcome) -> i32;
    pub safe fn defnulk_raw_port_detach(handle: &mut Handle, out: &mut Outcome) -> i32;
}
