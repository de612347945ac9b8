// What one system call a block costs a leg on a file: writes of 4 KiB as eight calls of 512 bytes, each behind
// a look at the file's length as a leg on a file does it, and as one call; on one file and on two.
//
//     rustc --edition 2024 -O bench/calls.rs -o calls && ./calls FOLDER
use std::fs::{self, File, OpenOptions};
use std::io::{self, Seek, SeekFrom};
use std::os::unix::fs::FileExt;
use std::time::Instant;

const SIZE: u64 = 64 << 20;
const REQUESTS: u64 = 20_000;
const ROUNDS: usize = 15;
const BYTES: usize = 4_096;
const BLOCK: usize = 512;

fn made(folder: &str, name: &str) -> io::Result<File> {
    let path = format!("{folder}/{name}");
    let file = OpenOptions::new().read(true).write(true).create(true).truncate(true).open(&path)?;
    fs::remove_file(&path)?;
    file.write_all_at(&vec![1; SIZE as usize], 0)?;
    Ok(file)
}

fn by_blocks(mut file: &File, offset: u64, bytes: &[u8]) -> io::Result<()> {
    for (number, block) in bytes.chunks(BLOCK).enumerate() {
        file.seek(SeekFrom::End(0))?;
        file.write_all_at(block, offset + (number * BLOCK) as u64)?;
    }
    Ok(())
}

fn at_once(file: &File, offset: u64, bytes: &[u8]) -> io::Result<()> {
    file.write_all_at(bytes, offset)
}

type Write = fn(&File, u64, &[u8]) -> io::Result<()>;

// Microseconds a request.
fn micros(files: &[File], write: Write) -> io::Result<f64> {
    let bytes = [3; BYTES];
    let places = SIZE / BYTES as u64;
    let start = Instant::now();
    for turn in 0..REQUESTS {
        let offset = turn * 7919 % places * BYTES as u64;
        for file in files {
            write(file, offset, &bytes)?;
        }
    }
    Ok(start.elapsed().as_secs_f64() * 1e6 / REQUESTS as f64)
}

fn median(files: &[File], write: Write) -> io::Result<f64> {
    let mut all = (0..ROUNDS).map(|_| micros(files, write)).collect::<io::Result<Vec<_>>>()?;
    all.sort_by(f64::total_cmp);
    Ok(all[ROUNDS / 2])
}

fn main() -> io::Result<()> {
    let folder = std::env::args().nth(1).unwrap_or_else(|| ".".to_string());
    let files = [made(&folder, "calls-0")?, made(&folder, "calls-1")?];
    for count in [1, 2] {
        let blocks = median(&files[..count], by_blocks)?;
        let once = median(&files[..count], at_once)?;
        println!("{count} file(s): by blocks {blocks:.1} us, at once {once:.1} us, more by {:.1} us", blocks - once);
    }
    Ok(())
}
