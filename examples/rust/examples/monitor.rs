//! The monitor of examples/c/monitor.c, in Rust: it holds its guest's memory itself, frame n of the server being page n
//! of it, and a device model works there by translations that it keeps until the device is flushed. Its output is the
//! same, with the journal in the last line.

use defnulk_iommufd::{again, Access, Config, Device, Error, Map, Port, Server, Translation};
use defnulk_iommufd::{FIXED_IOVA, READABLE, WRITEABLE};
use std::cell::Cell;
use std::ops::Range;

const FILE: u16 = 1;
const USER: u16 = 1;
const DEVICE: u16 = 1;
const PAGE: usize = 4096;
const FRAMES: u32 = 8;

/// The guest's pages.
const REQUEST: u64 = 0x10000;
const ANSWER: u64 = 0x11000;
const THIRD: u64 = 0x12000;
const FOURTH: u64 = 0x13000;

/// The device's addresses of the first two, and the one at which it signals interrupts.
const REQUEST_IOVA: u64 = 0x1000;
const ANSWER_IOVA: u64 = 0x2000;
const DOORBELL_IOVA: u64 = 0x4000;

/// Says what a call answered, and ends where it isn't what was wanted.
fn expect(what: &str, found: i64, wanted: i64) {
    println!("{what}: {found}");
    assert_eq!(found, wanted, "{what}");
}

/// What a call of C would have answered.
fn status<T>(result: &Result<T, Error>) -> i64 {
    result.as_ref().map_or_else(|error| error.status().into(), |_| 0)
}

/// The same of an access, which passed or was denied.
fn access_status(result: Result<bool, Error>) -> i64 {
    match result {
        Ok(false) => -14,
        other => status(&other),
    }
}

/// How two slices compare, as memcmp says of those that are the same.
fn difference(one: &[u8], other: &[u8]) -> i64 {
    (one != other).into()
}

/// The guest's memory, in which the guest and the device work side by side.
struct Memory(Vec<Cell<u8>>);

impl Memory {
    fn new() -> Memory {
        Memory(vec![Cell::new(0); FRAMES as usize * PAGE])
    }

    /// The bytes of a frame from this offset on.
    fn from(&self, frame: u32, offset: usize) -> &[Cell<u8>] {
        &self.0[frame as usize * PAGE..][offset..PAGE]
    }

    fn write(&self, frame: u32, offset: usize, bytes: &[u8]) {
        for (cell, byte) in self.from(frame, offset).iter().zip(bytes) {
            cell.set(*byte);
        }
    }

    fn read(&self, frame: u32, offset: usize, bytes: &mut [u8]) {
        for (cell, byte) in self.from(frame, offset).iter().zip(bytes) {
            *byte = cell.get();
        }
    }

    /// The first bytes of a frame.
    fn front<const N: usize>(&self, frame: u32) -> [u8; N] {
        let mut bytes = [0; N];
        self.read(frame, 0, &mut bytes);
        bytes
    }
}

/// A device model between two flushes: the translations that it keeps borrow its port, so it goes before the port is
/// flushed.
struct Dma<'a> {
    port: &'a Port,
    memory: &'a Memory,
    kept: Vec<(u64, Translation<'a>)>,
}

impl<'a> Dma<'a> {
    fn new(port: &'a Port, memory: &'a Memory) -> Dma<'a> {
        Dma {
            port,
            memory,
            kept: Vec::new(),
        }
    }

    /// In which frame an address is: by what the device keeps, or else by the server.
    fn find(&mut self, iova: u64, access: Access) -> Result<Option<u32>, Error> {
        let page = iova / PAGE as u64;
        let serves = |(kept, to): &&(u64, Translation)| *kept == page && to.allows(access);
        if let Some((_, to)) = self.kept.iter().find(serves) {
            return Ok(Some(to.frame()));
        }
        let found = again(|| self.port.translate(iova, access))?;
        self.kept.extend(found.map(|to| (page, to)));
        Ok(found.map(|to| to.frame()))
    }

    /// The device reads bytes, and whether it may.
    fn read(&mut self, iova: u64, bytes: &mut [u8]) -> Result<bool, Error> {
        for (piece, range) in pieces(iova, bytes.len()) {
            let Some(frame) = self.find(piece, Access::Read)? else {
                return Ok(false);
            };
            self.memory.read(frame, offset(piece), &mut bytes[range]);
        }
        Ok(true)
    }

    /// The device writes bytes, and whether it may.
    fn write(&mut self, iova: u64, bytes: &[u8]) -> Result<bool, Error> {
        for (piece, range) in pieces(iova, bytes.len()) {
            let Some(frame) = self.find(piece, Access::Write)? else {
                return Ok(false);
            };
            self.memory.write(frame, offset(piece), &bytes[range]);
        }
        Ok(true)
    }
}

/// Where in its page an address is.
fn offset(iova: u64) -> usize {
    iova as usize % PAGE
}

/// The pieces of an access, each in one page: where it begins, and which of the bytes it has.
fn pieces(iova: u64, len: usize) -> Vec<(u64, Range<usize>)> {
    let (mut pieces, mut done) = (Vec::new(), 0);
    while done < len {
        let begin = iova + done as u64;
        let end = len.min(done + PAGE - offset(begin));
        pieces.push((begin, done..end));
        done = end;
    }
    pieces
}

struct Monitor<'a> {
    server: Server,
    memory: &'a Memory,
    space: u32,
}

impl Monitor<'_> {
    fn map(&mut self, user_va: u64, iova: u64, rights: u32) -> Result<u64, Error> {
        let map = Map {
            flags: FIXED_IOVA | rights,
            ioas: self.space,
            user_va,
            length: PAGE as u64,
            iova,
        };
        again(|| self.server.caller().ioas_map(FILE, map))
    }

    fn unmap(&mut self, iova: u64) -> Result<u64, Error> {
        again(|| self.server.caller().ioas_unmap(FILE, self.space, iova, PAGE as u64))
    }

    /// Gives the guest a page, with nothing in it.
    fn give_page(&mut self, va: u64, wanted: u32) -> Result<u32, Error> {
        let given = again(|| self.server.caller().user_map(USER, va));
        expect("guest's page", status(&given), 0);
        let frame = given?;
        expect("its frame", frame.into(), wanted.into());
        self.memory.write(frame, 0, &[0; PAGE]);
        Ok(frame)
    }

    /// The device may read the request, and write the answer too. The answer is the id of its object.
    fn attach_device(&mut self, port: &mut Port) -> Result<u32, Error> {
        let space = again(|| self.server.caller().ioas_alloc(FILE));
        expect("address space", status(&space), 0);
        self.space = space?;
        expect("map the request", status(&self.map(REQUEST, REQUEST_IOVA, READABLE)), 0);
        expect(
            "map the answer",
            status(&self.map(ANSWER, ANSWER_IOVA, READABLE | WRITEABLE)),
            0,
        );
        let bound = again(|| self.server.caller().bind(FILE, DEVICE));
        expect("bind", status(&bound), 0);
        expect("attach", status(&again(|| port.attach(self.space))), 0);
        let doorbell = self.map(REQUEST, DOORBELL_IOVA, READABLE | WRITEABLE);
        expect("map where it signals", status(&doorbell), -22);
        bound
    }

    /// The guest asks, and the device answers.
    fn serve_request(&self, device: &mut Dma<'_>, request: u32, answer: u32) {
        let mut read = [0; 16];
        self.memory.write(request, 0, b"read block seven");
        self.memory.write(request, PAGE - 8, b"the tail");
        expect("device reads", access_status(device.read(REQUEST_IOVA, &mut read)), 0);
        expect("the request", difference(&read, b"read block seven"), 0);
        expect(
            "device answers",
            access_status(device.write(ANSWER_IOVA, b"block seven data")),
            0,
        );
        expect(
            "where the guest finds it",
            difference(&self.memory.front::<16>(answer), b"block seven data"),
            0,
        );
        expect(
            "device reads over the border",
            access_status(device.read(ANSWER_IOVA - 8, &mut read)),
            0,
        );
        expect("bytes of both pages", difference(&read, b"the tailblock se"), 0);
        expect(
            "device writes to the request",
            access_status(device.write(REQUEST_IOVA, &read)),
            -14,
        );
        expect(
            "device reads behind both",
            access_status(device.read(ANSWER_IOVA + PAGE as u64, &mut read)),
            -14,
        );
    }

    /// The guest gives the page of the answer up. While the device may still write there, its frame is nobody else's.
    fn take_answer(&mut self, device: &mut Dma<'_>, answer: u32) -> Result<(), Error> {
        expect("unmap has to wait", status(&self.unmap(ANSWER_IOVA)), -11);
        let given_up = again(|| self.server.caller().user_unmap(USER, ANSWER));
        expect("guest gives the page up", status(&given_up), 0);
        let third = self.give_page(THIRD, 5)?;
        expect(
            "device still writes",
            access_status(device.write(ANSWER_IOVA, b"late")),
            0,
        );
        expect(
            "to the page given up",
            difference(&self.memory.front::<4>(answer), b"late"),
            0,
        );
        expect("and not to the new one", self.memory.front::<1>(third)[0].into(), 0);
        Ok(())
    }

    /// The device has forgotten the page of the answer, and its frame is given out again.
    fn use_again(&mut self, device: &mut Dma<'_>, answer: u32) -> Result<(), Error> {
        expect(
            "device writes no more",
            access_status(device.write(ANSWER_IOVA, b"too late")),
            -14,
        );
        expect("unmap", status(&self.unmap(ANSWER_IOVA)), 0);
        let fourth = self.give_page(FOURTH, 1)?;
        let is_empty = self.memory.front::<1>(fourth) == [0];
        expect("where the answer was", (fourth == answer && is_empty).into(), 1);
        Ok(())
    }
}

fn open_server() -> Result<(Server, Port), Error> {
    let doorbell = DOORBELL_IOVA..=DOORBELL_IOVA + PAGE as u64 - 1;
    let device = Device {
        source: 0x0018,
        width: 39,
        x86: false,
        reserved: vec![doorbell],
    };
    let config = Config {
        pool: FRAMES,
        users: vec![4],
        files: vec![USER],
        devices: vec![device],
        passes: 2,
        lanes: 2,
        cache: 4,
    };
    let opened = Server::open(&config);
    expect("open", status(&opened), 0);
    let mut server = opened?;
    let given = server.port();
    expect("port", status(&given), 0);
    let (number, port) = given?;
    expect("of device", number as i64, DEVICE.into());
    Ok((server, port))
}

fn main() -> Result<(), Error> {
    let memory = Memory::new();
    let (server, mut port) = open_server()?;
    let mut monitor = Monitor {
        server,
        memory: &memory,
        space: 0,
    };
    let (request, answer) = (monitor.give_page(REQUEST, 0)?, monitor.give_page(ANSWER, 1)?);
    let bound = monitor.attach_device(&mut port)?;

    let mut device = Dma::new(&port, &memory);
    monitor.serve_request(&mut device, request, answer);
    monitor.take_answer(&mut device, answer)?;
    drop(device); // with the translations that it keeps: the port isn't flushed before
    expect("flush", status(&again(|| port.flush())), 0);
    monitor.use_again(&mut Dma::new(&port, &memory), answer)?;

    expect("detach", status(&again(|| port.detach())), 0);
    expect(
        "unbind",
        status(&again(|| monitor.server.caller().unbind(FILE, bound))),
        0,
    );
    let journal = again(|| monitor.server.caller().journal());
    expect("journal", status(&journal), 0);
    let journal = journal?;
    expect("its bytes", journal.len() as i64, 476);
    println!(
        "{}",
        journal.iter().map(|byte| format!("{byte:02x}")).collect::<String>()
    );
    Ok(())
}
