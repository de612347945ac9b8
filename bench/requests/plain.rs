// A plain Rust reader of the same stream, with the standard library alone. It copies each payload out
// of its receive buffer, so that a request can be kept; or, `lent`, lends it until the next call.
use std::hint::black_box;
use std::time::Instant;

#[path = "../common/received.rs"]
mod received;
use received::Received;

const PIECE: usize = 65_536;
const ROUNDS: u32 = 12;
const LONGEST: u32 = 33_554_432;

struct Request<P> {
    index: u64,
    kind: u16,
    flags: u16,
    cookie: u64,
    offset: u64,
    length: u32,
    payload: P,
}

#[derive(Debug)]
enum Fault {
    Magic,
    TooLong,
}

struct Reader {
    received: Received,
    count: u64,
}

impl Reader {
    fn new() -> Reader {
        Reader {
            received: Received::default(),
            count: 0,
        }
    }

    fn next(&mut self) -> Result<Option<Request<&[u8]>>, Fault> {
        let bytes = self.received.rest();
        let Some(head) = bytes.first_chunk::<28>() else {
            return Ok(None);
        };
        if u32::from_be_bytes(head[..4].try_into().unwrap()) != 0x2560_9513 {
            return Err(Fault::Magic);
        }
        let flags = u16::from_be_bytes(head[4..6].try_into().unwrap());
        let kind = u16::from_be_bytes(head[6..8].try_into().unwrap());
        let cookie = u64::from_be_bytes(head[8..16].try_into().unwrap());
        let offset = u64::from_be_bytes(head[16..24].try_into().unwrap());
        let length = u32::from_be_bytes(head[24..].try_into().unwrap());
        let payload_len = if kind == 1 { length } else { 0 };
        if payload_len > LONGEST {
            return Err(Fault::TooLong);
        }
        let end = 28 + payload_len as usize;
        if bytes.len() < end {
            return Ok(None);
        }
        let start = self.received.start;
        let payload = start + 28..start + end;
        self.received.start += end;
        let index = self.count;
        self.count += 1;
        Ok(Some(Request {
            index,
            kind,
            flags,
            cookie,
            offset,
            length,
            payload: &self.received.buffer[payload],
        }))
    }
}

impl Request<&[u8]> {
    fn kept(self) -> Request<Vec<u8>> {
        Request {
            index: self.index,
            kind: self.kind,
            flags: self.flags,
            cookie: self.cookie,
            offset: self.offset,
            length: self.length,
            payload: self.payload.to_vec(),
        }
    }
}

impl<P: AsRef<[u8]>> Request<P> {
    fn sum(&self) -> u64 {
        let last = self.payload.as_ref().last();
        (self.index ^ self.cookie ^ self.offset)
            .wrapping_add(u64::from(self.length ^ u32::from(self.kind ^ self.flags)))
            .wrapping_add(last.map_or(0, |byte| u64::from(*byte)))
    }
}

// How many requests are read, and a sum over them.
fn read_all(bytes: &[u8], times: usize, is_lent: bool) -> (u64, u64) {
    let mut reader = Reader::new();
    let (mut count, mut sum) = (0u64, 0u64);
    for _ in 0..times {
        for piece in bytes.chunks(PIECE) {
            reader.received.feed(piece);
            while let Some(request) = reader.next().unwrap() {
                count += 1;
                sum = sum.wrapping_add(if is_lent {
                    request.sum()
                } else {
                    black_box(request.kept()).sum()
                });
            }
        }
    }
    (count, sum)
}

fn stream(kind: u16, length: u32, count: u64) -> Vec<u8> {
    let mut bytes = Vec::new();
    for cookie in 0..count {
        bytes.extend_from_slice(&0x2560_9513u32.to_be_bytes());
        bytes.extend_from_slice(&0u16.to_be_bytes());
        bytes.extend_from_slice(&kind.to_be_bytes());
        bytes.extend_from_slice(&cookie.to_be_bytes());
        bytes.extend_from_slice(&(cookie * 4096).to_be_bytes());
        bytes.extend_from_slice(&length.to_be_bytes());
        if kind == 1 {
            bytes.resize(bytes.len() + length as usize, 0xaa);
        }
    }
    bytes
}

fn main() {
    for (name, kind, length, requests, times) in [
        ("WRITE of 4 KiB", 1, 4096, 16_384, 1),
        ("READ", 0, 4096, 16_384, 148),
        ("WRITE of 32 MiB", 1, 33_554_432, 2, 1),
    ] {
        let bytes = stream(kind, length, requests);
        for (is_lent, how) in [(false, ""), (true, ", lent")] {
            for _ in 0..ROUNDS {
                let start = Instant::now();
                let (count, sum) = read_all(&bytes, times, is_lent);
                let took = start.elapsed().as_nanos();
                println!("{name}{how}: {count} {} {sum} {took}", bytes.len() * times);
            }
        }
    }
}
