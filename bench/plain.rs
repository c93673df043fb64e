//! A server in plain Rust, without proofs: reads a request's head and body, and answers the bytes of a file, whatever was asked.
//!
//! usage: plain FILE CONNECTIONS [KEPT]
//! It takes so many connections on 127.0.0.1, one after the other, a request each, and prints its port first. Where KEPT is named, each body is appended
//! to that file, and is on the disk before it is answered.

use std::env;
use std::fs::{self, File};
use std::io::{self, Read, Write};
use std::net::{Shutdown, TcpListener, TcpStream};

/// The most bytes of a head.
const LONGEST_HEAD: usize = 8192;

/// Where the head ends, and how long the body is that it announces.
fn head_of(bytes: &[u8]) -> Option<(usize, usize)> {
    let end = bytes.windows(4).position(|four| four == b"\r\n\r\n")? + 4;
    let length = bytes[..end]
        .split(|byte| *byte == b'\n')
        .filter_map(|line| std::str::from_utf8(line).ok()?.trim().split_once(':'))
        .find(|(name, _)| name.eq_ignore_ascii_case("content-length"))
        .and_then(|(_, value)| value.trim().parse().ok());
    Some((end, length.unwrap_or(0)))
}

/// The body of a request, which has no more than the head says.
fn body_of(peer: &mut TcpStream) -> io::Result<Vec<u8>> {
    let mut seen = Vec::new();
    let mut piece = [0; LONGEST_HEAD];
    loop {
        if let Some((end, length)) = head_of(&seen) {
            if seen.len() >= end + length {
                return Ok(seen.split_off(end));
            }
        }
        let read = peer.read(&mut piece)?;
        if read == 0 {
            return Ok(seen);
        }
        seen.extend_from_slice(&piece[..read]);
    }
}

fn serve(mut peer: TcpStream, reply: &[u8], kept: Option<&mut File>) -> io::Result<()> {
    let body = body_of(&mut peer)?;
    if let Some(file) = kept {
        file.write_all(&body)?;
        file.sync_data()?;
    }
    peer.write_all(reply)?;
    peer.shutdown(Shutdown::Write)
}

fn main() -> io::Result<()> {
    let words: Vec<String> = env::args().collect();
    let reply = fs::read(&words[1])?;
    let connections: usize = words[2].parse().expect("a count");
    let mut kept = words.get(3).map(File::create).transpose()?;
    let listener = TcpListener::bind("127.0.0.1:0")?;
    println!("{}", listener.local_addr()?.port());
    for _ in 0..connections {
        serve(listener.accept()?.0, &reply, kept.as_mut())?;
    }
    Ok(())
}
