//! The bytes that crates/bench_roles passes on, copied through Rust's `VecDeque<u8>`: for
//! bench/roles.py. An in proxy holds them once, a connection three times in a direction: at the end
//! that gives, at the proxy, and at the end that takes.

use std::collections::VecDeque;
use std::env;
use std::io::{self, Read};
use std::process::ExitCode;

/// The most bytes that go over a leg at once.
const PIECE: usize = 4096;
/// How many bytes are held before they go on.
const HELD: usize = 32_768;

/// Moves the first bytes into the room, as many as there are, and answers how many.
fn take(bytes: &mut VecDeque<u8>, room: &mut [u8]) -> usize {
    let len = bytes.len().min(room.len());
    let (one, two) = bytes.as_slices();
    let from_one = one.len().min(len);
    room[..from_one].copy_from_slice(&one[..from_one]);
    room[from_one..len].copy_from_slice(&two[..len - from_one]);
    bytes.drain(..len);
    len
}

/// Copies all that the first place holds to the last one, in pieces, and drops it there.
fn go_on(places: &mut [VecDeque<u8>]) -> u64 {
    let mut room = [0; PIECE];
    let mut out = 0;
    for place in 0..places.len() {
        loop {
            let len = take(&mut places[place], &mut room);
            if len == 0 {
                break;
            }
            match places.get_mut(place + 1) {
                Some(next) => next.extend(&room[..len]),
                None => out += len as u64,
            }
        }
    }
    out
}

fn pass(pdu: &[u8], most: u64, count: usize) -> u64 {
    let mut places = vec![VecDeque::with_capacity(2 * HELD); count];
    let mut passed = 0;
    for _ in 0..most / pdu.len() as u64 {
        places[0].extend(pdu);
        if places[0].len() + pdu.len() > HELD {
            passed += go_on(&mut places);
        }
    }
    passed + go_on(&mut places)
}

fn main() -> ExitCode {
    let mut words = env::args().skip(1);
    let places = match words.next().as_deref() {
        Some("in") => 1,
        Some("up" | "down") => 3,
        _ => return ExitCode::from(1),
    };
    let Some(most) = words.next().and_then(|word| word.parse().ok()) else {
        return ExitCode::from(1);
    };
    let mut pdu = Vec::new();
    if io::stdin().read_to_end(&mut pdu).is_err() || pdu.is_empty() {
        return ExitCode::from(1);
    }
    println!("{} bytes", pass(&pdu, most, places));
    ExitCode::from(0)
}
