//! Packets as text: lines of hex, and the line that tells each.

use crate::hex;
use crate::pdu::{self, HEADER_LEN, PTYPE_RTS};
use crate::record::lines_of;
use crate::report::{write_number, Report};
use crate::rts::{self, Command, RtsFault};
use std::fmt::Display;
use std::io::Write;

const MOST_BYTES: usize = 65_535;

/// A text of packets of which every line was read.
#[derive(Debug)]
pub struct Packets<'a> {
    lines: &'a [u8],
}

impl<'a> Packets<'a> {
    /// Reads all lines; refuses with the number of the first one outside the grammar.
    pub fn read(text: &'a [u8]) -> Result<Packets<'a>, u64> {
        for (line, count) in lines_of(text).zip(1..) {
            if !hex::fits(line, MOST_BYTES) || !hex::is_hex(line) {
                return Err(count);
            }
        }
        Ok(Packets { lines: text })
    }

    pub fn show(&self, report: &mut Report) {
        let mut bytes = Vec::new();
        for line in lines_of(self.lines) {
            if report.has_failed() {
                break;
            }
            report.add_line(|text| write_packet(line, &mut bytes, text));
        }
    }
}

/// Tells the packet of a line; `bytes` is room for its bytes.
fn write_packet(line: &[u8], bytes: &mut Vec<u8>, text: &mut Vec<u8>) {
    let front = line.get(..2 * HEADER_LEN);
    if front.is_some_and(|front| hex::byte(&[front[4], front[5]]) == PTYPE_RTS) {
        hex::read(line, bytes);
        write_rts(bytes, text);
    } else {
        // A header and the number of bytes tell all.
        hex::read(front.unwrap_or(line), bytes);
        write_pdu(bytes, line.len() / 2, text);
    }
}

fn write_fault(fault: impl Display, text: &mut Vec<u8>) {
    // Writing to a vector doesn't fail.
    let _ = write!(text, "fault {fault}");
}

fn write_pdu(front: &[u8], len: usize, text: &mut Vec<u8>) {
    if let Err(fault) = pdu::check_front(front, len) {
        return write_fault(fault, text);
    }
    text.extend_from_slice(b"rpc");
    add_number(u32::from(front[2]), text);
    // frag_length is the number of bytes.
    add_number(len as u32, text);
    add_number(pdu::call_id(front), text);
}

fn write_rts(bytes: &[u8], text: &mut Vec<u8>) {
    let start = text.len();
    if let Err(fault) = write_commands(bytes, text) {
        text.truncate(start);
        write_fault(fault, text);
    }
}

/// Tells flags and commands, up to the first fault.
fn write_commands(bytes: &[u8], text: &mut Vec<u8>) -> Result<(), RtsFault> {
    let flags = rts::read_flags(bytes)?;
    text.extend_from_slice(b"rts");
    add_hex(&flags.to_be_bytes(), text);
    rts::read_commands(bytes, |command| {
        text.extend_from_slice(name_of(&command));
        write_values(command, text);
    })
}

fn name_of(command: &Command) -> &'static [u8] {
    match command {
        Command::Window(_) => b" ReceiveWindowSize",
        Command::Ack(_) => b" FlowControlAck",
        Command::Timeout(_) => b" ConnectionTimeout",
        Command::Cookie(_) => b" Cookie",
        Command::Lifetime(_) => b" ChannelLifetime",
        Command::Keepalive(_) => b" ClientKeepalive",
        Command::Version(_) => b" Version",
        Command::Empty => b" Empty",
        Command::Padding(_) => b" Padding",
        Command::NegativeAnce => b" NegativeANCE",
        Command::Ance => b" ANCE",
        Command::Address(..) => b" ClientAddress",
        Command::Group(_) => b" AssociationGroupId",
        Command::Destination(_) => b" Destination",
        Command::PingTraffic(_) => b" PingTrafficSentNotify",
    }
}

fn write_values(command: Command, text: &mut Vec<u8>) {
    match command {
        Command::Window(n)
        | Command::Timeout(n)
        | Command::Lifetime(n)
        | Command::Keepalive(n)
        | Command::Version(n)
        | Command::Destination(n)
        | Command::PingTraffic(n) => add_number(n, text),
        Command::Ack(ack) => {
            add_number(ack.received, text);
            add_number(ack.window, text);
            add_cookie(ack.cookie, text);
        }
        Command::Cookie(cookie) | Command::Group(cookie) => add_cookie(cookie, text),
        Command::Padding([]) => text.extend_from_slice(b" -"),
        Command::Padding(bytes) => add_hex(bytes, text),
        Command::Address(address, padding) => {
            text.extend_from_slice(if address.len() == 4 { b" 0" } else { b" 1" });
            add_hex(address, text);
            add_hex(padding, text);
        }
        Command::Empty | Command::NegativeAnce | Command::Ance => {}
    }
}

fn add_number(number: u32, text: &mut Vec<u8>) {
    text.push(b' ');
    write_number(text, u64::from(number));
}

fn add_cookie(cookie: rts::Cookie, text: &mut Vec<u8>) {
    text.push(b' ');
    text.extend_from_slice(&cookie.text());
}

fn add_hex(bytes: &[u8], text: &mut Vec<u8>) {
    text.push(b' ');
    hex::write(text, bytes);
}
