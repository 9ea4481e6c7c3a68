//! The world of a direct recording: two ends and one leg.

use crate::hex;
use crate::intake::{Intake, Item};
use crate::pdu;
use crate::record::{Dir, Line, Recording, Side};
use crate::report::{GiveFault, Report};
use crate::window::Queue;
use std::collections::VecDeque;

/// One direction: the queue of the end that gives, the bytes in flight, the PDUs not taken yet.
#[derive(Default)]
struct Half {
    queue: Queue,
    begun: Vec<u8>,
    drawn: usize,
    flight: VecDeque<u8>,
    intake: Intake,
    list: VecDeque<Vec<u8>>,
    given: u64,
    taken: u64,
}

impl Half {
    fn give(&mut self, pdu: &[u8]) -> Result<usize, GiveFault> {
        pdu::check(pdu).map_err(GiveFault::Bad)?;
        if !self.queue.push(pdu) {
            return Err(GiveFault::Full { held: self.queue.held(), len: pdu.len() });
        }
        self.given += 1;
        Ok(pdu.len())
    }

    fn send(&mut self, most: usize) -> usize {
        let mut left = most;
        while left > 0 {
            if self.drawn == self.begun.len() {
                self.drawn = 0;
                self.begun.clear();
                match self.queue.pop() {
                    Some(pdu) => self.begun = pdu,
                    None => break,
                }
            }
            let len = left.min(self.begun.len() - self.drawn);
            self.flight.extend(&self.begun[self.drawn..self.drawn + len]);
            self.drawn += len;
            left -= len;
        }
        most - left
    }

    fn feed(intake: &mut Intake, list: &mut VecDeque<Vec<u8>>, mut piece: &[u8]) {
        while let Item::Frame { bytes, .. } = intake.next(&mut piece) {
            list.push_back(bytes.to_vec());
        }
    }

    fn take(&mut self) -> Option<Vec<u8>> {
        let pdu = self.list.pop_front()?;
        self.taken += 1;
        Some(pdu)
    }
}

pub fn run(recording: &Recording, report: &mut Report) {
    let (mut up, mut down) = (Half::default(), Half::default());
    let mut bytes = Vec::new();
    for line in recording.lines() {
        match line {
            Line::Give { side, hex } => {
                hex::read(hex, &mut bytes);
                let half = if side == Side::Client { &mut up } else { &mut down };
                report.given(side, half.give(&bytes));
            }
            Line::Take { side } => {
                let half = if side == Side::Server { &mut up } else { &mut down };
                match half.take() {
                    Some(pdu) => report.taken(side, &pdu),
                    None => report.line(format_args!("take {} empty", side.letter())),
                }
            }
            Line::Send { dir, count, .. } => {
                let half = if dir == Dir::Up { &mut up } else { &mut down };
                report.sent(None, dir, Some(half.send(count)));
            }
            Line::Move { dir, count, .. } => {
                let half = if dir == Dir::Up { &mut up } else { &mut down };
                let (front, back) = front_of(&half.flight, count);
                report.moved(None, dir, Some((front, back)));
                Half::feed(&mut half.intake, &mut half.list, front);
                Half::feed(&mut half.intake, &mut half.list, back);
                let count = front.len() + back.len();
                half.flight.drain(..count);
            }
            _ => {}
        }
        if report.has_failed() {
            return;
        }
    }
    report.line(format_args!("up given {} taken {}", up.given, up.taken));
    report.line(format_args!("down given {} taken {}", down.given, down.taken));
}

/// The first bytes in flight, up to `most`, as they lie.
pub fn front_of(flight: &VecDeque<u8>, most: usize) -> (&[u8], &[u8]) {
    let (front, back) = flight.as_slices();
    let front = &front[..front.len().min(most)];
    (front, &back[..back.len().min(most - front.len())])
}
