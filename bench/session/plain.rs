// A plain Rust server of the same sessions, with the standard library alone. It makes a READ's bytes
// in a buffer of their own, as the target's interface asks for; or, `lent`, right behind the reply.
use std::io::{Read, Write};
use std::time::Instant;

#[path = "../common/received.rs"]
mod received;
use received::Received;

const SIZE: usize = 8_388_608;
const ROUNDS: u32 = 12;
const ROOM: usize = 131_072;
const GATHERED: usize = 65_536;
const LONGEST: u32 = 33_554_432;

// A writer that adds up every 4099th of the bytes that it is given, in whatever pieces.
struct Sum {
    size: u64,
    sum: u64,
}

impl Write for Sum {
    fn write(&mut self, buf: &[u8]) -> std::io::Result<usize> {
        let first = (4098 - self.size % 4099) as usize;
        for piece in buf.get(first..).unwrap_or(&[]).chunks(4099) {
            let byte = piece.first().copied().unwrap_or(0);
            self.sum = self.sum.wrapping_mul(31).wrapping_add(u64::from(byte));
        }
        self.size = self.size.wrapping_add(buf.len() as u64);
        Ok(buf.len())
    }

    fn flush(&mut self) -> std::io::Result<()> {
        Ok(())
    }
}

trait Target {
    fn size(&self) -> u64;
    fn read(&mut self, offset: u64, into: &mut [u8]) -> Result<(), u32>;
    fn write(&mut self, offset: u64, payload: &[u8]) -> Result<(), u32>;
}

struct MemTarget {
    bytes: Vec<u8>,
}

impl Target for MemTarget {
    fn size(&self) -> u64 {
        self.bytes.len() as u64
    }

    fn read(&mut self, offset: u64, into: &mut [u8]) -> Result<(), u32> {
        let from = offset as usize;
        into.copy_from_slice(&self.bytes[from..from + into.len()]);
        Ok(())
    }

    fn write(&mut self, offset: u64, payload: &[u8]) -> Result<(), u32> {
        let from = offset as usize;
        self.bytes[from..from + payload.len()].copy_from_slice(payload);
        Ok(())
    }
}

struct Session<'a, R, W, T> {
    reader: R,
    writer: W,
    target: &'a mut T,
    room: Vec<u8>,
    received: Received,
    out: Vec<u8>,
    requests: u64,
    is_lent: bool,
}

enum Step {
    Answered,
    Starved,
    Ended,
}

impl<R: Read, W: Write, T: Target> Session<'_, R, W, T> {
    fn read_piece(&mut self) -> bool {
        let count = self.reader.read(&mut self.room).unwrap();
        self.received.feed(&self.room[..count]);
        count > 0
    }

    fn send(&mut self) {
        if !self.out.is_empty() {
            self.writer.write_all(&self.out).unwrap();
            self.out = Vec::new();
        }
    }

    // The greeting, the client's flags, and one GO.
    fn handshake(&mut self) -> bool {
        self.out.extend_from_slice(b"NBDMAGICIHAVEOPT\0\x03");
        self.send();
        while self.received.rest().len() < 4 + 16 {
            if !self.read_piece() {
                return false;
            }
        }
        let rest = self.received.rest();
        let option = u32::from_be_bytes(rest[12..16].try_into().unwrap());
        let length = u32::from_be_bytes(rest[16..20].try_into().unwrap()) as usize;
        if option != 7 || &rest[4..12] != b"IHAVEOPT" || length > 4096 {
            return false;
        }
        while self.received.rest().len() < 20 + length {
            if !self.read_piece() {
                return false;
            }
        }
        self.received.start += 20 + length;
        let size = self.target.size();
        for (kind, data) in [
            (3, [&[0, 0][..], &size.to_be_bytes(), &[1, 0x6d]].concat()),
            (3, b"\0\x03\0\0\0\x01\0\0\x10\0\x02\0\0\0".to_vec()),
            (1, Vec::new()),
        ] {
            self.out.extend_from_slice(b"\0\x03\xe8\x89\x04\x55\x65\xa9\0\0\0\x07");
            self.out.extend_from_slice(&u32::to_be_bytes(kind));
            self.out.extend_from_slice(&(data.len() as u32).to_be_bytes());
            self.out.extend_from_slice(&data);
        }
        self.send();
        true
    }

    fn reply(&mut self, error: u32, cookie: u64, bytes: &[u8]) {
        self.out.extend_from_slice(&0x6744_6698u32.to_be_bytes());
        self.out.extend_from_slice(&error.to_be_bytes());
        self.out.extend_from_slice(&cookie.to_be_bytes());
        self.out.extend_from_slice(bytes);
    }

    fn read(&mut self, cookie: u64, offset: u64, length: u32) {
        if self.is_lent {
            let start = self.out.len();
            self.reply(0, cookie, &[]);
            let from = self.out.len();
            self.out.resize(from + length as usize, 0);
            if let Err(code) = self.target.read(offset, &mut self.out[from..]) {
                self.out.truncate(start);
                self.reply(code, cookie, &[]);
            }
            return;
        }
        let mut buffer = vec![0; length as usize];
        match self.target.read(offset, &mut buffer) {
            Ok(()) => self.reply(0, cookie, &buffer),
            Err(code) => self.reply(code, cookie, &[]),
        }
    }

    // Reads one request and answers it.
    fn step(&mut self) -> Step {
        let bytes = self.received.rest();
        let Some(head) = bytes.first_chunk::<28>() else {
            return Step::Starved;
        };
        if u32::from_be_bytes(head[..4].try_into().unwrap()) != 0x2560_9513 {
            return Step::Ended;
        }
        let flags = u16::from_be_bytes(head[4..6].try_into().unwrap());
        let kind = u16::from_be_bytes(head[6..8].try_into().unwrap());
        let cookie = u64::from_be_bytes(head[8..16].try_into().unwrap());
        let offset = u64::from_be_bytes(head[16..24].try_into().unwrap());
        let length = u32::from_be_bytes(head[24..].try_into().unwrap());
        let payload_len = if kind == 1 { length } else { 0 };
        if payload_len > LONGEST {
            return Step::Ended;
        }
        let end = 28 + payload_len as usize;
        if bytes.len() < end {
            return Step::Starved;
        }
        let payload = self.received.start + 28..self.received.start + end;
        self.received.start += end;
        self.requests += 1;
        let is_inside = offset
            .checked_add(u64::from(length))
            .is_some_and(|end| end <= self.target.size());
        match kind {
            2 => return Step::Ended,
            0 | 1 if flags != 0 || length > LONGEST => self.reply(22, cookie, &[]),
            0 if !is_inside => self.reply(22, cookie, &[]),
            1 if !is_inside => self.reply(28, cookie, &[]),
            0 => self.read(cookie, offset, length),
            1 => match self.target.write(offset, &self.received.buffer[payload]) {
                Ok(()) => self.reply(0, cookie, &[]),
                Err(code) => self.reply(code, cookie, &[]),
            },
            _ => self.reply(22, cookie, &[]),
        }
        Step::Answered
    }

    fn serve(&mut self) {
        if !self.handshake() {
            return;
        }
        loop {
            let mut step = Step::Answered;
            while self.out.len() < GATHERED {
                step = self.step();
                if !matches!(step, Step::Answered) {
                    break;
                }
                step = Step::Answered;
            }
            self.send();
            match step {
                Step::Answered => {}
                Step::Ended => return,
                Step::Starved => {
                    if !self.read_piece() {
                        return;
                    }
                }
            }
        }
    }
}

fn stream(kind: u8, length: u32, count: u64) -> Vec<u8> {
    let mut bytes = b"\0\0\0\x03IHAVEOPT\0\0\0\x07\0\0\0\x0a\0\0\0\x04disk\0\0".to_vec();
    for cookie in 0..count {
        bytes.extend_from_slice(&[0x25, 0x60, 0x95, 0x13, 0, 0, 0, kind]);
        bytes.extend_from_slice(&cookie.to_be_bytes());
        let offset = cookie * u64::from(length) % (SIZE as u64);
        bytes.extend_from_slice(&offset.to_be_bytes());
        bytes.extend_from_slice(&length.to_be_bytes());
        if kind == 1 {
            bytes.resize(bytes.len() + length as usize, cookie as u8);
        }
    }
    bytes.extend_from_slice(&[0x25, 0x60, 0x95, 0x13, 0, 0, 0, 2]);
    bytes.extend_from_slice(&[0; 20]);
    bytes
}

fn main() {
    let mut target = MemTarget {
        bytes: vec![0; SIZE],
    };
    for (name, kind, length, requests) in [
        ("session, WRITE of 4 KiB", 1, 4096, 4096),
        ("session, READ of 4 KiB", 0, 4096, 4096),
        ("session, READ of 128 KiB", 0, 131_072, 256),
    ] {
        let bytes = stream(kind, length, requests);
        for (is_lent, how) in [(false, ""), (true, ", lent")] {
            if is_lent && kind == 1 {
                continue;
            }
            for _ in 0..ROUNDS {
                let input = bytes.clone();
                let start = Instant::now();
                let mut session = Session {
                    reader: input.as_slice(),
                    writer: Sum { size: 0, sum: 0 },
                    target: &mut target,
                    room: vec![0; ROOM],
                    received: Received::default(),
                    out: Vec::new(),
                    requests: 0,
                    is_lent,
                };
                session.serve();
                let took = start.elapsed().as_nanos();
                let Sum { size, sum } = session.writer;
                let total = size + bytes.len() as u64;
                println!("{name}{how}: {} {total} {sum} {took}", session.requests);
            }
        }
    }
}
