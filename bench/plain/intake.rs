//! The bytes that come on a leg: a head or a greeting, then frames.

use crate::http::{self, HttpFault, Request, Response, GREATEST_HEAD};
use crate::pdu::{self, HeadFault, HEADER_LEN};

pub const GREETING: &[u8; 14] = b"ncacn_http/1.0";

#[derive(Clone, Copy, PartialEq, Eq, Default)]
pub enum Stage {
    Request {
        inbound: bool,
    },
    Response,
    Greeting,
    #[default]
    Frames,
    /// The body of an echo request.
    Echo,
}

#[derive(Default)]
pub struct Intake {
    stage: Stage,
    /// All bytes that came.
    fed: u64,
    /// Those of an unfinished head, greeting or frame; where `whole`, of the frame given last.
    held: Vec<u8>,
    whole: bool,
    /// How long the unfinished frame is, where that is known.
    frame: Option<usize>,
    /// The bytes that may still come behind a head, and how many that were.
    room: Option<u64>,
    length: u64,
    /// Whether a PDU or a packet other than a Ping came.
    pub first_came: bool,
}

pub enum Item<'a> {
    Need,
    Request(Request),
    Response(Response),
    Greeting,
    Frame { place: u64, bytes: &'a [u8] },
    BadGreeting,
    BadFrame { place: u64, fault: HeadFault },
    BadHead { place: usize, fault: HttpFault },
    BodyOver { length: u64 },
}

impl Intake {
    pub fn new(stage: Stage) -> Intake {
        Intake { stage, ..Intake::default() }
    }

    /// The bytes of an unfinished head, greeting or frame.
    pub fn partial(&self) -> usize {
        if self.whole {
            0
        } else {
            self.held.len()
        }
    }

    /// Takes the next item from the front of `rest`.
    pub fn next<'a, 'p: 'a>(&'a mut self, rest: &mut &'p [u8]) -> Item<'a> {
        if self.whole {
            self.held.clear();
            self.whole = false;
        }
        if rest.is_empty() {
            return Item::Need;
        }
        if self.room == Some(0) {
            return Item::BodyOver { length: self.length };
        }
        match self.stage {
            Stage::Request { .. } | Stage::Response => self.head(rest),
            Stage::Greeting => self.greeting(rest),
            Stage::Echo => {
                self.take(rest, usize::MAX);
                Item::Need
            }
            Stage::Frames => self.frame(rest),
        }
    }

    /// Counts up to `most` bytes of the rest and of the body as come, and answers them.
    fn take<'p>(&mut self, rest: &mut &'p [u8], most: usize) -> &'p [u8] {
        let room = self.room.unwrap_or(u64::MAX).min(most as u64);
        let (front, back) = rest.split_at(room.min(rest.len() as u64) as usize);
        *rest = back;
        self.fed += front.len() as u64;
        if let Some(room) = &mut self.room {
            *room -= front.len() as u64;
        }
        front
    }

    /// Adds bytes to those held until there are `want`; answers whether there are.
    fn hold(&mut self, rest: &mut &[u8], want: usize) -> bool {
        let piece = self.take(rest, want - self.held.len());
        self.held.extend_from_slice(piece);
        self.held.len() == want
    }

    fn head(&mut self, rest: &mut &[u8]) -> Item<'static> {
        let before = self.held.len();
        let piece = &rest[..rest.len().min(GREATEST_HEAD - before)];
        self.held.extend_from_slice(piece);
        let from = before.saturating_sub(3);
        let Some(found) = self.held[from..].windows(4).position(|four| four == b"\r\n\r\n") else {
            self.take(rest, piece.len());
            if self.held.len() == GREATEST_HEAD {
                return Item::BadHead { place: GREATEST_HEAD, fault: HttpFault::TooLong };
            }
            return Item::Need;
        };
        let len = from + found + 4;
        self.held.truncate(len);
        self.take(rest, len - before);
        let head = std::mem::take(&mut self.held);
        let judged = match self.stage {
            Stage::Request { inbound } => http::read_request(&head, inbound).map(Item::Request),
            _ => http::read_response(&head).map(Item::Response),
        };
        let length = match &judged {
            Ok(Item::Request(request)) => u64::from(request.length),
            Ok(Item::Response(response)) => response.length,
            _ => 0,
        };
        self.length = length;
        self.room = Some(length);
        self.stage = match judged {
            Ok(Item::Request(Request { echo: true, .. })) => Stage::Echo,
            _ => Stage::Frames,
        };
        judged.unwrap_or_else(|fault| Item::BadHead { place: len, fault })
    }

    fn greeting(&mut self, rest: &mut &[u8]) -> Item<'static> {
        if !self.hold(rest, GREETING.len()) {
            return Item::Need;
        }
        let fits = self.held == GREETING;
        self.held.clear();
        self.stage = Stage::Frames;
        if fits {
            Item::Greeting
        } else {
            Item::BadGreeting
        }
    }

    fn frame<'a, 'p: 'a>(&'a mut self, rest: &mut &'p [u8]) -> Item<'a> {
        let place = self.fed - self.held.len() as u64;
        let there = (rest.len() as u64).min(self.room.unwrap_or(u64::MAX)) as usize;
        if self.held.is_empty() && there >= HEADER_LEN {
            // A frame that is whole in the piece isn't copied.
            match pdu::frame_len(rest) {
                Err(fault) => return Item::BadFrame { place, fault },
                Ok(len) if len <= there => {
                    return Item::Frame { place, bytes: self.take(rest, len) }
                }
                Ok(len) => self.frame = Some(len),
            }
        }
        if self.frame.is_none() {
            if !self.hold(rest, HEADER_LEN) {
                return Item::Need;
            }
            match pdu::frame_len(&self.held) {
                Err(fault) => return Item::BadFrame { place, fault },
                Ok(len) => self.frame = Some(len),
            }
        }
        if !self.hold(rest, self.frame.unwrap_or(HEADER_LEN)) {
            return Item::Need;
        }
        self.frame = None;
        self.whole = true;
        Item::Frame { place, bytes: &self.held }
    }
}
