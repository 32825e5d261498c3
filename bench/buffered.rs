//! A yardstick: the translation of frames by the buffered reader and writer of Rust's library, with the checks of `relay`.
//!
//! `buffered IN OUT` with framings as those of `relay copy`; it ends with the same statuses, and tells no places.

use std::io::{self, BufRead, BufReader, BufWriter, ErrorKind, Read, Write};
use std::process::exit;

const MAX: usize = 65_536;
const BAD: i32 = 2;
const TRUNCATED: i32 = 3;

/// Reads a payload, and answers whether there was one.
fn read_frame(input: &mut impl BufRead, framing: &str, payload: &mut Vec<u8>) -> io::Result<bool> {
    payload.clear();
    if framing == "line" {
        let mut limited = input.take(MAX as u64 + 1);
        limited.read_until(b'\n', payload)?;
        if payload.is_empty() {
            return Ok(false);
        }
        if payload.last() == Some(&b'\n') {
            payload.pop();
        } else if payload.len() > MAX {
            exit(BAD);
        }
        return Ok(true);
    }
    if input.fill_buf()?.is_empty() {
        return Ok(false);
    }
    let len = if framing == "len4" {
        let mut head = [0; 4];
        input.read_exact(&mut head)?;
        u32::from_be_bytes(head) as usize
    } else {
        let mut head = [0; 2];
        input.read_exact(&mut head)?;
        u16::from_be_bytes(head) as usize
    };
    if len > MAX {
        exit(BAD);
    }
    payload.resize(len, 0);
    input.read_exact(payload)?;
    Ok(true)
}

fn write_frame(output: &mut impl Write, framing: &str, payload: &[u8]) -> io::Result<()> {
    match framing {
        "line" => {
            if payload.contains(&b'\n') {
                exit(BAD);
            }
            output.write_all(payload)?;
            output.write_all(b"\n")
        }
        "len4" => {
            output.write_all(&(payload.len() as u32).to_be_bytes())?;
            output.write_all(payload)
        }
        _ => {
            if payload.len() > 65_535 {
                exit(BAD);
            }
            output.write_all(&(payload.len() as u16).to_be_bytes())?;
            output.write_all(payload)
        }
    }
}

fn relay(from: &str, to: &str) -> io::Result<()> {
    let mut input = BufReader::new(io::stdin().lock());
    let mut output = BufWriter::new(io::stdout().lock());
    let mut payload = Vec::new();
    while read_frame(&mut input, from, &mut payload)? {
        write_frame(&mut output, to, &payload)?;
    }
    output.flush()
}

fn main() {
    let words: Vec<String> = std::env::args().collect();
    match relay(&words[1], &words[2]) {
        Ok(()) => {}
        Err(error) if error.kind() == ErrorKind::UnexpectedEof => exit(TRUNCATED),
        Err(_) => exit(4),
    }
}
