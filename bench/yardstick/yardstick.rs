//! `chanmap serial` in plain Rust, to measure the proved program by: see `bench/README.md`.

#![forbid(unsafe_code)]

mod blocks;
mod book;
mod bytes;
mod capture;
mod device;
mod packet;
mod player;
mod requests;
mod routing;
mod rtp;

use std::env;
use std::fs::File;
use std::io::{self, BufWriter, Read, Write};
use std::os::fd::AsFd;
use std::process::ExitCode;

/// The most bytes of a capture.
const MOST: usize = 1 << 26;
/// So many bytes are written at once.
const BUFFER: usize = 1 << 16;

/// Why there is no result, or not all of it: the exit status, and a line.
struct Failure {
    status: u8,
    line: String,
}

fn fail(status: u8, line: impl ToString) -> Failure {
    Failure { status, line: line.to_string() }
}

fn main() -> ExitCode {
    match run() {
        Ok(()) => ExitCode::SUCCESS,
        Err(Failure { status, line }) => {
            // Where the line can't be written either, the status still tells.
            let _ = writeln!(io::stderr(), "{line}");
            ExitCode::from(status)
        }
    }
}

fn run() -> Result<(), Failure> {
    if !env::args_os().skip(1).eq(["serial"]) {
        return Err(fail(2, "usage: yardstick serial"));
    }
    let data = read_input().map_err(|_| fail(3, "read fault"))?;
    if data.len() > MOST {
        return Err(fail(7, "too long"));
    }
    let capture = capture::read_capture(&data).map_err(|fault| fail(5, fault))?;
    let written = open_output().and_then(|mut out| {
        player::play(&capture, &mut out)?;
        out.flush()
    });
    written.map_err(|_| fail(4, "write fault"))
}

/// Standard input, of which no more is read than tells that it is too long.
fn read_input() -> io::Result<Vec<u8>> {
    let mut data = Vec::new();
    io::stdin().lock().take(MOST as u64 + 1).read_to_end(&mut data)?;
    Ok(data)
}

/// Standard output as a file: `Stdout` would look for line feeds in what is written.
fn open_output() -> io::Result<BufWriter<File>> {
    let file = File::from(io::stdout().as_fd().try_clone_to_owned()?);
    Ok(BufWriter::with_capacity(BUFFER, file))
}
