// Forwards PDUs over TCP with no virtual connection: what bench/relays.py compares rh_roles with.
//
//     rustc -O bench/relays.rs
//     relays PIECE server AT    PDUs from standard input to its caller, and the caller's to output
//     relays PIECE proxy AT TO  bytes between its caller and TO, both ways
//     relays PIECE client TO    PDUs from standard input to TO, and TO's to output
//
// Each has a thread for each direction, reads PIECE bytes at most, and writes what it read at once;
// to standard output each PDU is one write.
use std::io::{self, Read, Write};
use std::net::{Shutdown, TcpListener, TcpStream};
use std::{env, thread};

fn send(most: usize, mut from: impl Read, to: &TcpStream) -> io::Result<()> {
    let mut piece = vec![0; most];
    loop {
        let count = from.read(&mut piece)?;
        if count == 0 {
            return to.shutdown(Shutdown::Write);
        }
        (&mut &*to).write_all(&piece[..count])?;
    }
}

/// Writes each PDU by itself, once it is whole.
fn receive(most: usize, mut from: &TcpStream, mut to: impl Write) -> io::Result<()> {
    let (mut held, mut piece) = (Vec::new(), vec![0; most]);
    loop {
        let count = from.read(&mut piece)?;
        if count == 0 {
            return Ok(());
        }
        held.extend_from_slice(&piece[..count]);
        let mut place = 0;
        while held.len() - place >= 16 {
            let length = u16::from_le_bytes([held[place + 8], held[place + 9]]) as usize;
            if held.len() - place < length {
                break;
            }
            to.write_all(&held[place..place + length])?;
            to.flush()?;
            place += length;
        }
        held.drain(..place);
    }
}

fn end(most: usize, stream: TcpStream) -> io::Result<()> {
    stream.set_nodelay(true)?;
    let given = stream.try_clone()?;
    let giver = thread::spawn(move || send(most, io::stdin(), &given));
    receive(most, &stream, io::stdout().lock())?;
    giver.join().unwrap()
}

fn proxy(most: usize, near: TcpStream, far: TcpStream) -> io::Result<()> {
    near.set_nodelay(true)?;
    far.set_nodelay(true)?;
    let (back_from, back_to) = (far.try_clone()?, near.try_clone()?);
    let back = thread::spawn(move || send(most, &back_from, &back_to));
    send(most, &near, &far)?;
    back.join().unwrap()
}

fn accepted(at: &str) -> io::Result<TcpStream> {
    Ok(TcpListener::bind(at)?.accept()?.0)
}

fn main() -> io::Result<()> {
    let words: Vec<String> = env::args().skip(1).collect();
    let words: Vec<_> = words.iter().map(String::as_str).collect();
    let [piece, ref words @ ..] = words[..] else {
        panic!("PIECE first")
    };
    let most = piece.parse().unwrap();
    match words {
        ["server", at] => end(most, accepted(at)?),
        ["proxy", at, to] => proxy(most, accepted(at)?, TcpStream::connect(to)?),
        ["client", to] => end(most, TcpStream::connect(to)?),
        _ => panic!("PIECE, then server AT, proxy AT TO or client TO"),
    }
}
