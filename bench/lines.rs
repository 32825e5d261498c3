//! A yardstick: what `example_lines` does, by the buffered reader of Rust's library.

use std::io::{self, BufRead, BufReader};
use std::os::fd::FromRawFd;
use std::{fs::File, mem::ManuallyDrop};

const CAPACITY: usize = 65_536;

fn main() -> io::Result<()> {
    // Standard input itself: std's `stdin()` would put a buffer of its own before this one.
    let stdin = ManuallyDrop::new(unsafe { File::from_raw_fd(0) });
    let mut input = BufReader::with_capacity(CAPACITY, &*stdin);
    let mut line = Vec::new();
    let mut count = 0u64;
    let mut longest = 0;
    loop {
        line.clear();
        if input.read_until(b'\n', &mut line)? == 0 {
            break;
        }
        if line.last() == Some(&b'\n') {
            line.pop();
        }
        count += 1;
        longest = longest.max(line.len());
    }
    println!("{count} lines, the longest of {longest} bytes");
    Ok(())
}
