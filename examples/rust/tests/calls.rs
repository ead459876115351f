//! Each call once, of those that the example doesn't make: the declarations in `src/raw.rs` are written by hand.

use defnulk_iommufd::{again, Access, Config, Device, Error, Map, Port, Server, Stopped};
use defnulk_iommufd::{FIXED_IOVA, READABLE, WRITEABLE};
use std::ops::RangeInclusive;
use std::thread;

const FILE: u16 = 1;
const USER: u16 = 1;
const PAGE: u64 = 4096;

/// One user with one file, and a device that reserves these spans.
fn config(reserved: Vec<RangeInclusive<u64>>) -> Config {
    let device = Device {
        source: 0x0018,
        width: 39,
        x86: false,
        reserved,
    };
    Config {
        pool: 8,
        users: vec![4],
        files: vec![USER],
        devices: vec![device],
        passes: 5,
        lanes: 4,
        cache: 1,
    }
}

/// A server with a page of the user at 0x10000, which the address space of the answer maps at 0x1000; and the device's
/// port.
fn open() -> Result<(Server, Port, u32), Error> {
    let mut server = Server::open(&config(Vec::new()))?;
    let (_, port) = server.port()?;
    let caller = server.caller();
    caller.user_map(USER, 0x10000)?;
    let ioas = caller.ioas_alloc(FILE)?;
    let map = Map {
        flags: FIXED_IOVA | READABLE | WRITEABLE,
        ioas,
        user_va: 0x10000,
        length: PAGE,
        iova: 0x1000,
    };
    assert_eq!(caller.ioas_map(FILE, map)?, 0x1000);
    Ok((server, port, ioas))
}

#[test]
fn a_device_and_its_user_share_a_page() -> Result<(), Error> {
    let (mut server, mut port, ioas) = open()?;
    let id = server.caller().bind(FILE, 1)?;
    port.attach(ioas)?;
    assert_eq!(server.caller().held(USER)?, 1);
    assert_eq!(server.caller().free_frames()?, 4);

    let (mut read, mut seen) = ([0; 4], [0; 3]);
    assert_eq!(port.write(0x1ffd, b"dma"), Ok(()));
    server.caller().user_read(USER, 0x10ffd, &mut seen)?;
    assert_eq!(&seen, b"dma");
    server.caller().user_write(USER, 0x10ffd, b"cpu")?;
    let denied = Error::Denied { reason: 6 };
    assert_eq!(port.read(0x1ffd, &mut read), Err(Stopped { done: 3, error: denied }));
    assert_eq!(&read, b"cpu\0");
    assert!(port.translate(0x2000, Access::Read)?.is_none());

    port.detach()?;
    server.caller().unbind(FILE, id)?;
    server.caller().close_file(FILE)?;
    server.caller().user_unmap(USER, 0x10000)?;
    assert_eq!(server.caller().free_frames()?, 8);
    Ok(())
}

#[test]
fn an_access_object_keeps_an_unmap_waiting() -> Result<(), Error> {
    let (mut server, _port, ioas) = open()?;
    let caller = server.caller();
    let access = caller.access_create(FILE)?;
    caller.access_attach(FILE, access, ioas)?;
    caller.access_pin(FILE, access, 0x1000, PAGE, true)?;
    caller.access_write(FILE, access, 0x1000, b"pinned")?;
    let mut read = [0; 6];
    caller.access_read(FILE, access, 0x1000, &mut read)?;
    assert_eq!(&read, b"pinned");

    assert!(caller.notices(FILE, access)?.is_empty());
    let waits = Err(Error::Ioctl { errno: 11 });
    assert_eq!(caller.ioas_unmap(FILE, ioas, 0x1000, PAGE), waits);
    assert_eq!(caller.notices(FILE, access)?, [0x1000..=0x1fff]);
    caller.access_unpin(FILE, access, 0x1000, PAGE, true)?;
    assert_eq!(caller.ioas_unmap(FILE, ioas, 0x1000, PAGE)?, PAGE);
    caller.access_detach(FILE, access)?;
    let refused = Err(Error::Refused { errno: 2, cause: 28 });
    assert_eq!(caller.access_detach(FILE, access), refused);
    Ok(())
}

#[test]
fn callers_in_threads_make_one_history() -> Result<(), Error> {
    let (mut server, _port, _) = open()?;
    let before = server.caller().journal()?.len();
    let callers = [server.share()?, server.share()?, server.share()?];
    assert_eq!(server.share().err(), Some(Error::NoneLeft));
    thread::scope(|scope| {
        for (caller, va) in callers.into_iter().zip([0x20000, 0x30000, 0x40000]) {
            scope.spawn(move || {
                let mut caller = caller;
                for _ in 0..100 {
                    again(|| caller.user_map(USER, va)).expect("a page comes");
                    again(|| caller.user_unmap(USER, va)).expect("and goes");
                }
            });
        }
    });
    // A record of a user's new page has 22 bytes, and one of a page given up 18.
    assert_eq!(server.caller().journal()?.len() - before, 300 * (22 + 18));
    Ok(())
}

#[test]
fn a_reserved_span_has_whole_pages() {
    assert!(Server::open(&config(vec![0x1000..=0x1fff])).is_ok());
    assert_eq!(Server::open(&config(vec![0x1000..=0x1ffe])).err(), Some(Error::Limits));
}
