//! Windows of RPC bytes, lifetimes, and the lists of PDUs of a channel's receiver.

use crate::rts::{Ack, Cookie, Packet};
use std::collections::VecDeque;

const GREATEST_WINDOW: u32 = 262_144;
const GREATEST_PDU: u64 = 8_192;
/// What an end's queue holds at most.
pub const QUEUE_BYTES: usize = 262_144;

/// What a sender knows: the bytes sent and the greatest edge that it was told.
#[derive(Default)]
pub struct SendWindow {
    sent: u64,
    edge: u64,
}

impl SendWindow {
    pub fn set_edge(&mut self, edge: u32) {
        self.edge = u64::from(edge);
    }

    pub fn may_send(&self, len: usize) -> bool {
        self.sent + len as u64 <= self.edge
    }

    pub fn sent(&mut self, len: usize) {
        self.sent += len as u64;
    }

    /// Refuses with the command's field (1) and its value.
    pub fn acked(&mut self, ack: &Ack) -> Result<(), Refused> {
        if u64::from(ack.received) > self.sent {
            return Err(Refused::Range { command: 1, value: ack.received });
        }
        if ack.window > GREATEST_WINDOW {
            return Err(Refused::Range { command: 1, value: ack.window });
        }
        self.edge = self.edge.max(ack.edge());
        Ok(())
    }
}

/// Why a row of the tables refuses what came.
pub enum Refused {
    Unexpected,
    Cookie { expected: Cookie, got: Cookie },
    Window { reached: u64, edge: u64 },
    Range { command: u32, value: u32 },
    Full(crate::leg::Leg),
}

pub type Row = Result<(), Refused>;

/// A row's condition.
pub fn expect(condition: bool) -> Row {
    if condition {
        Ok(())
    } else {
        Err(Refused::Unexpected)
    }
}

/// A row's cookie condition.
pub fn agree(expected: Cookie, got: Cookie) -> Row {
    if expected == got {
        Ok(())
    } else {
        Err(Refused::Cookie { expected, got })
    }
}

/// Whether a packet leaves the end of a lifetime to those that hand over.
#[derive(Clone, Copy)]
pub enum Keeps {
    Reserve,
    Nothing,
}

/// What a channel may still carry.
pub struct Meter {
    length: u64,
    count: u64,
}

impl Meter {
    pub fn new(length: u32, start: u32) -> Meter {
        Meter { length: u64::from(length), count: u64::from(start) }
    }

    pub fn may_put(&self, len: usize) -> bool {
        self.count + len as u64 + 256 <= self.length
    }

    pub fn fits(&self, len: usize) -> bool {
        self.count + len as u64 <= self.length
    }

    pub fn put(&mut self, len: usize) {
        self.count += len as u64;
    }

    pub fn wanted(&self) -> bool {
        self.count + 65_536 >= self.length
    }

    /// Counts a packet that was written, where it may go: within the lifetime, or with the bytes
    /// left that are kept for the packets that hand over. Else takes it back.
    pub fn lets(&mut self, keeps: Keeps, out: &mut Vec<u8>) -> bool {
        let lets = match keeps {
            Keeps::Reserve => self.may_put(out.len()),
            Keeps::Nothing => self.fits(out.len()),
        };
        match lets {
            true => self.put(out.len()),
            false => out.clear(),
        }
        lets
    }
}

/// One channel at its receiver.
pub struct Channel {
    pub number: u32,
    list: VecDeque<Vec<u8>>,
    pub ended: bool,
    size: u64,
    received: u64,
    released: u64,
    told: u64,
}

impl Channel {
    fn new(number: u32, size: u32, shut: bool) -> Channel {
        let size = u64::from(size);
        let told = if shut { 0 } else { size };
        Channel {
            number,
            list: VecDeque::new(),
            ended: false,
            size,
            received: 0,
            released: 0,
            told,
        }
    }

    pub fn is_empty(&self) -> bool {
        self.list.is_empty()
    }

    pub fn front_len(&self) -> Option<usize> {
        self.list.front().map(Vec::len)
    }

    pub fn tell(&mut self) {
        self.told = self.size;
    }

    pub fn admit(&mut self, pdu: &[u8]) -> Row {
        let reached = self.received + pdu.len() as u64;
        if reached > self.told {
            return Err(Refused::Window { reached, edge: self.told });
        }
        self.received = reached;
        self.list.push_back(pdu.to_vec());
        Ok(())
    }

    /// The acknowledgement that is due on this channel.
    pub fn due(&self, cookie: Cookie) -> Option<Ack> {
        let edge = self.released + self.size;
        if self.told == 0 || edge <= self.told || edge > u64::from(u32::MAX) {
            return None;
        }
        let half = 2 * (edge - self.told) >= self.size;
        let narrow = self.told - self.received < GREATEST_PDU;
        let window = (edge - self.received) as u32;
        (half || narrow).then_some(Ack { received: self.received as u32, window, cookie })
    }

    pub fn acknowledged(&mut self, ack: &Ack) {
        self.told = ack.edge();
    }
}

pub enum Take {
    Pdu(Vec<u8>),
    Empty,
    Ended,
}

/// The current channel and the next one, which gives nothing before the current one is finished
/// and empty.
pub struct RecvLine {
    size: u32,
    pub current: Channel,
    pub next: Option<Channel>,
    finished: bool,
    over: bool,
}

impl RecvLine {
    pub fn new(number: u32, size: u32) -> RecvLine {
        RecvLine {
            size,
            current: Channel::new(number, size, false),
            next: None,
            finished: false,
            over: false,
        }
    }

    pub fn channel(&mut self, number: u32) -> Option<&mut Channel> {
        if self.current.number == number {
            return Some(&mut self.current);
        }
        self.next.as_mut().filter(|next| next.number == number)
    }

    pub fn open_next(&mut self, number: u32, shut: bool) {
        self.next = Some(Channel::new(number, self.size, shut));
    }

    pub fn end(&mut self, number: u32) {
        if let Some(channel) = self.channel(number) {
            channel.ended = true;
        }
        self.over |= self.current.ended;
    }

    pub fn finish(&mut self) {
        self.finished = true;
        self.move_on();
    }

    pub fn is_finished(&self) -> bool {
        self.finished
    }

    fn move_on(&mut self) {
        if self.finished && self.current.is_empty() {
            if let Some(next) = self.next.take() {
                self.current = next;
                self.finished = false;
                self.over |= self.current.ended;
            }
        }
    }

    /// Takes the front PDU of the current list and releases it.
    pub fn pop(&mut self) -> Option<Vec<u8>> {
        let pdu = self.current.list.pop_front()?;
        self.current.released += pdu.len() as u64;
        self.move_on();
        Some(pdu)
    }

    pub fn take(&mut self) -> Take {
        match self.pop() {
            Some(pdu) => Take::Pdu(pdu),
            None if self.over => Take::Ended,
            None => Take::Empty,
        }
    }
}

/// The PDUs that were given to an end and of which nothing was put.
#[derive(Default)]
pub struct Queue {
    list: VecDeque<Vec<u8>>,
    held: usize,
    closing: bool,
}

impl Queue {
    pub fn held(&self) -> usize {
        self.held
    }

    /// Refuses what would be more than 262,144 bytes.
    pub fn push(&mut self, pdu: &[u8]) -> bool {
        let fits = self.held + pdu.len() <= QUEUE_BYTES;
        if fits {
            self.held += pdu.len();
            self.list.push_back(pdu.to_vec());
        }
        fits
    }

    pub fn pop(&mut self) -> Option<Vec<u8>> {
        let pdu = self.list.pop_front()?;
        self.held -= pdu.len();
        Some(pdu)
    }

    /// No PDU will be given any more.
    pub fn close(&mut self) {
        self.closing = true;
    }

    pub fn is_closing(&self) -> bool {
        self.closing
    }

    /// Puts the front PDU on the writing channel, or END behind the last one.
    pub fn put(&mut self, to: &mut Giving, out: &mut Vec<u8>) -> bool {
        let front = self.list.front().map(Vec::len);
        if let Some(len) = front.filter(|&len| to.window.may_send(len) && to.meter.may_put(len)) {
            to.window.sent(len);
            to.meter.put(len);
            *out = self.pop().unwrap_or_default();
            return true;
        }
        if front.is_some() || !self.closing || to.end_put {
            return false;
        }
        Packet::End.write(out);
        to.end_put = to.meter.lets(Keeps::Nothing, out);
        to.end_put
    }
}

/// A channel at the end that gives on it.
pub struct Giving {
    pub window: SendWindow,
    pub meter: Meter,
    pub end_put: bool,
}

impl Giving {
    pub fn new(meter: Meter) -> Giving {
        Giving { window: SendWindow::default(), meter, end_put: false }
    }
}
