//! A yardstick: `relay serve` from `len4` to `line`, by the TCP streams and the buffered reader and writer of Rust's library.
//!
//! `serve LISTEN TARGET COUNT` relays so many connections, one after the other, each to a new one. A frame that has come whole is
//! written before more is waited for.

use std::io::{self, BufRead, BufReader, BufWriter, Error, ErrorKind, Write};
use std::net::{TcpListener, TcpStream};

const MAX: usize = 65_536;

/// Reads a payload, and answers whether there was one.
fn read_frame(input: &mut impl BufRead, payload: &mut Vec<u8>) -> io::Result<bool> {
    if input.fill_buf()?.is_empty() {
        return Ok(false);
    }
    let mut head = [0; 4];
    input.read_exact(&mut head)?;
    let len = u32::from_be_bytes(head) as usize;
    if len > MAX {
        return Err(Error::from(ErrorKind::InvalidData));
    }
    payload.resize(len, 0);
    input.read_exact(payload)?;
    if payload.contains(&b'\n') {
        return Err(Error::from(ErrorKind::InvalidData));
    }
    Ok(true)
}

/// Relays a connection to the target, and answers how many frames there were.
fn relay(client: TcpStream, target: &str) -> io::Result<u64> {
    let peer = TcpStream::connect(target)?;
    peer.set_nodelay(true)?;
    let mut input = BufReader::new(client);
    let mut output = BufWriter::new(peer);
    let mut payload = Vec::new();
    let mut frames = 0;
    while read_frame(&mut input, &mut payload)? {
        output.write_all(&payload)?;
        output.write_all(b"\n")?;
        if input.buffer().is_empty() {
            output.flush()?;
        }
        frames += 1;
    }
    output.flush()?;
    Ok(frames)
}

fn main() -> io::Result<()> {
    let words: Vec<String> = std::env::args().collect();
    let listener = TcpListener::bind(&words[1])?;
    for number in 1..=words[3].parse().unwrap() {
        let (client, _) = listener.accept()?;
        let frames = relay(client, &words[2])?;
        println!("{} 0 {frames}", number as u32);
    }
    Ok(())
}
