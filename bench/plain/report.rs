//! The report, written in large pieces, or only summed up.

use crate::hex;
use crate::leg::{Cause, Leg, Who};
use crate::pdu::PduFault;
use crate::record::{Dir, Side};
use std::io::{self, Write};

const PIECE: usize = 65_536;

/// Appends a number in decimal.
pub fn write_number(text: &mut Vec<u8>, mut number: u64) {
    let mut digits = [0; 20];
    let mut first = digits.len();
    loop {
        first -= 1;
        digits[first] = b'0' + (number % 10) as u8;
        number /= 10;
        if number == 0 {
            break;
        }
    }
    text.extend_from_slice(&digits[first..]);
}

pub struct Report<'a> {
    sink: Option<&'a mut dyn Write>,
    text: Vec<u8>,
    failed: io::Result<()>,
    /// The bytes of all move lines, and the numbers of all quiet and spent lines.
    pub moved: u64,
    pub rounds: u64,
}

pub enum GiveFault {
    Full { held: usize, len: usize },
    Bad(PduFault),
    Closing,
    Closed(Cause),
}

impl<'a> Report<'a> {
    pub fn new(sink: &'a mut dyn Write) -> Report<'a> {
        Report {
            sink: Some(sink),
            text: Vec::with_capacity(4 * PIECE),
            failed: Ok(()),
            moved: 0,
            rounds: 0,
        }
    }

    /// A report that keeps nothing but its sums and what is written behind `keep`.
    pub fn sums() -> Report<'static> {
        Report { sink: None, text: Vec::new(), failed: Ok(()), moved: 0, rounds: 0 }
    }

    pub fn keep(self, sink: &mut dyn Write) -> Report<'_> {
        Report {
            sink: Some(sink),
            text: Vec::new(),
            failed: Ok(()),
            moved: self.moved,
            rounds: self.rounds,
        }
    }

    pub fn has_failed(&self) -> bool {
        self.failed.is_err()
    }

    pub fn end(mut self) -> io::Result<()> {
        self.flush();
        self.failed
    }

    fn flush(&mut self) {
        if let (Some(sink), Ok(())) = (&mut self.sink, &self.failed) {
            self.failed = sink.write_all(&self.text).and_then(|()| sink.flush());
        }
        self.text.clear();
    }

    /// Adds a line of a few words.
    pub fn line(&mut self, line: std::fmt::Arguments) {
        // Writing to a vector doesn't fail.
        self.add_line(|text| drop(text.write_fmt(line)));
    }

    /// Adds the line that `write` appends.
    pub fn add_line(&mut self, write: impl FnOnce(&mut Vec<u8>)) {
        if self.sink.is_some() {
            write(&mut self.text);
            self.end_line();
        }
    }

    fn end_line(&mut self) {
        self.text.push(b'\n');
        if self.text.len() >= PIECE {
            self.flush();
        }
    }

    pub fn given(&mut self, side: Side, answer: Result<usize, GiveFault>) {
        let side = side.letter();
        match answer {
            Ok(len) => self.line(format_args!("give {side} ok {len}")),
            Err(GiveFault::Full { held, len }) => {
                self.line(format_args!("give {side} full {held} {len}"))
            }
            Err(GiveFault::Bad(fault)) => self.line(format_args!("give {side} bad {fault}")),
            Err(GiveFault::Closing) => self.line(format_args!("give {side} closing")),
            Err(GiveFault::Closed(cause)) => self.line(format_args!("give {side} closed {cause}")),
        }
    }

    pub fn taken(&mut self, side: Side, pdu: &[u8]) {
        self.add_line(|text| {
            text.extend_from_slice(match side {
                Side::Client => b"take c pdu ",
                Side::Server => b"take s pdu ",
            });
            hex::write(text, pdu);
        });
    }

    fn leg_words(&mut self, word: &[u8], leg: Option<Leg>, dir: Dir) {
        self.text.extend_from_slice(word);
        match leg {
            Some(leg) => {
                self.text.extend_from_slice(leg.kind.text().as_bytes());
                write_number(&mut self.text, u64::from(leg.number));
            }
            None => self.text.extend_from_slice(b"cs"),
        }
        self.text.extend_from_slice(if dir == Dir::Up { b" u " } else { b" d " });
    }

    pub fn sent(&mut self, leg: Option<Leg>, dir: Dir, count: Option<usize>) {
        if self.sink.is_some() {
            self.leg_words(b"send ", leg, dir);
            self.count(count);
            self.end_line();
        }
    }

    fn count(&mut self, count: Option<usize>) {
        match count {
            Some(count) => write_number(&mut self.text, count as u64),
            None => self.text.extend_from_slice(b"no"),
        }
    }

    /// The bytes moved, in up to two pieces.
    pub fn moved(&mut self, leg: Option<Leg>, dir: Dir, bytes: Option<(&[u8], &[u8])>) {
        let count = bytes.map(|(front, back)| front.len() + back.len());
        self.moved += count.unwrap_or(0) as u64;
        if self.sink.is_none() {
            return;
        }
        self.leg_words(b"move ", leg, dir);
        self.count(count);
        if let Some((front, back)) = bytes.filter(|_| count != Some(0)) {
            self.text.push(b' ');
            hex::write(&mut self.text, front);
            hex::write(&mut self.text, back);
        }
        self.end_line();
    }

    pub fn settled(&mut self, word: &str, rounds: u32) {
        self.rounds += u64::from(rounds);
        self.line(format_args!("{word} {rounds}"));
    }

    pub fn closed(&mut self, who: Who, cause: Cause) {
        self.line(format_args!("closed {who} {cause}"));
    }
}
