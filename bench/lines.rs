//! What crates/bench_lines does, with Rust's `VecDeque<u8>` in place of its rings: for bench/lines.py.

use std::collections::VecDeque;
use std::env;
use std::io::{self, Read};
use std::process::ExitCode;

/// How many bytes are passed on at most.
const MOST_PASSED: u64 = 1_000_000_000;
/// How many bytes of PDUs a queue holds at most.
const QUEUE_BYTES: usize = 262_144;
/// The window of a line, in bytes.
const WINDOW: u64 = 65_536;
/// The room for the longest PDU, in bytes.
const ROOM: usize = 8192;

/// The length that the PDU in front tells, in its own byte order.
fn front(bytes: &VecDeque<u8>) -> Option<usize> {
    let (order, first, last) = (*bytes.get(4)?, *bytes.get(8)?, *bytes.get(9)?);
    let number = if order / 16 == 1 { u16::from_le_bytes([first, last]) } else { u16::from_be_bytes([first, last]) };
    Some(usize::from(number))
}

/// Moves the PDU in front into the room, and answers its length.
fn pop(bytes: &mut VecDeque<u8>, room: &mut [u8; ROOM]) -> Option<usize> {
    let len = front(bytes)?;
    let (one, two) = bytes.as_slices();
    let from_one = one.len().min(len);
    room[..from_one].copy_from_slice(&one[..from_one]);
    room[from_one..len].copy_from_slice(&two[..len - from_one]);
    bytes.drain(..len);
    Some(len)
}

fn through_queue(pdu: &[u8]) -> Option<u64> {
    let mut queue = VecDeque::with_capacity(QUEUE_BYTES);
    let mut room = [0; ROOM];
    let mut passed = 0;
    for _ in 0..MOST_PASSED / pdu.len() as u64 {
        if queue.len() + pdu.len() > QUEUE_BYTES {
            return None;
        }
        queue.extend(pdu);
        passed += pop(&mut queue, &mut room)? as u64;
    }
    Some(passed)
}

fn through_line(pdu: &[u8]) -> Option<u64> {
    let mut line = VecDeque::with_capacity(WINDOW as usize);
    let mut room = [0; ROOM];
    let (mut received, mut released, mut told) = (0, 0, WINDOW);
    for _ in 0..MOST_PASSED / pdu.len() as u64 {
        if received + pdu.len() as u64 > told {
            return None;
        }
        received += pdu.len() as u64;
        line.extend(pdu);
        released += pop(&mut line, &mut room)? as u64;
        let more = released + WINDOW - told;
        if 2 * more >= WINDOW || (more > 0 && told - received < ROOM as u64) {
            told += more;
        }
    }
    Some(released)
}

fn main() -> ExitCode {
    let word = env::args().nth(1);
    let mut pdu = Vec::new();
    if io::stdin().read_to_end(&mut pdu).is_err() {
        return ExitCode::from(1);
    }
    let passed = match word.as_deref() {
        Some("send") => through_queue(&pdu),
        Some("recv") => through_line(&pdu),
        _ => None,
    };
    let Some(passed) = passed else {
        return ExitCode::from(1);
    };
    println!("{passed} bytes");
    ExitCode::from(0)
}
