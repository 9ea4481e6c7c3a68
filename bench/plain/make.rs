//! A generated run: PDUs both ways, settled from time to time, and the clean end.

use crate::pdu::HEADER_LEN;
use crate::record::Side;
use crate::report::Report;
use crate::world::{Config, World};
use std::io::{self, Write};

const MOST_ROUNDS: u32 = 1_000;
const BETWEEN_SETTLES: u32 = 16;

/// PDU i, of 24 to 5,023 bytes.
fn write_pdu(i: u32, pdu: &mut Vec<u8>) {
    let len = 24 + (i * 613 % 5_000) as usize;
    pdu.clear();
    pdu.extend_from_slice(&[5, 0, 0, 3, 0x10, 0, 0, 0]);
    pdu.extend_from_slice(&(len as u16).to_le_bytes());
    pdu.extend_from_slice(&[0; 2]);
    pdu.extend_from_slice(&i.to_le_bytes());
    debug_assert_eq!(pdu.len(), HEADER_LEN);
    pdu.resize(len, (i % 256) as u8);
}

pub fn run(n: u32, sink: &mut dyn Write) -> io::Result<()> {
    let mut world = World::new(Config::default());
    let mut report = Report::sums();
    let mut pdu = Vec::new();
    for i in 1..=n {
        write_pdu(i, &mut pdu);
        world.give(if i % 2 == 1 { Side::Client } else { Side::Server }, &pdu, &mut report);
        if i % BETWEEN_SETTLES == 0 || i == n {
            world.settle(MOST_ROUNDS, &mut report);
        }
    }
    world.close(Side::Client, &mut report);
    world.close(Side::Server, &mut report);
    world.settle(MOST_ROUNDS, &mut report);
    let mut report = report.keep(sink);
    world.last(&mut report);
    let (moved, rounds) = (report.moved, report.rounds);
    report.line(format_args!("moved {moved}"));
    report.line(format_args!("rounds {rounds}"));
    report.end()
}
