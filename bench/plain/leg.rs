//! Names of legs and nodes, and the causes for which a node closes.

use crate::http::HttpFault;
use crate::pdu::HeadFault;
use crate::rts::{Cookie, RtsFault};
use std::fmt;

/// The kinds in the order of legs.
#[derive(Clone, Copy, PartialEq, Eq, PartialOrd, Ord, Debug)]
pub enum LegKind {
    ClientOut,
    OutServer,
    ClientIn,
    InServer,
}

#[derive(Clone, Copy, PartialEq, Eq, PartialOrd, Ord, Debug)]
pub struct Leg {
    pub kind: LegKind,
    pub number: u32,
}

impl Leg {
    pub fn new(kind: LegKind, number: u32) -> Leg {
        Leg { kind, number }
    }
}

impl LegKind {
    pub fn text(self) -> &'static str {
        match self {
            LegKind::ClientOut => "co",
            LegKind::OutServer => "os",
            LegKind::ClientIn => "ci",
            LegKind::InServer => "is",
        }
    }
}

impl fmt::Display for Leg {
    fn fmt(&self, f: &mut fmt::Formatter) -> fmt::Result {
        write!(f, "{}{}", self.kind.text(), self.number)
    }
}

/// The nodes in the order in which a tick tells them.
#[derive(Clone, Copy, PartialEq, Eq, PartialOrd, Ord, Debug)]
pub enum Who {
    Client,
    Server,
    In(u32),
    Out(u32),
}

impl fmt::Display for Who {
    fn fmt(&self, f: &mut fmt::Formatter) -> fmt::Result {
        match self {
            Who::Client => f.write_str("c"),
            Who::Server => f.write_str("s"),
            Who::In(n) => write!(f, "i{n}"),
            Who::Out(n) => write!(f, "o{n}"),
        }
    }
}

#[derive(Clone, Copy, PartialEq, Eq, Debug)]
pub enum Cause {
    LegBroken { leg: Leg },
    LegEnded { leg: Leg, partial: usize },
    BadFrame { leg: Leg, place: u64, fault: HeadFault },
    BadPacket { leg: Leg, place: u64, fault: RtsFault },
    Unexpected { leg: Leg, place: u64 },
    CookieMismatch { leg: Leg, expected: Cookie, got: Cookie },
    WindowExceeded { leg: Leg, reached: u64, edge: u64 },
    OutOfRange { leg: Leg, command: u32, value: u32 },
    HttpRefused { leg: Leg, status: u16 },
    BadHead { leg: Leg, place: usize, fault: HttpFault },
    Silent { leg: Leg, since: u64, now: u64 },
    ControlFull { leg: Leg },
    BodyOver { leg: Leg, count: u64, length: u64 },
}

impl fmt::Display for Cause {
    fn fmt(&self, f: &mut fmt::Formatter) -> fmt::Result {
        match self {
            Cause::LegBroken { leg } => write!(f, "1 LegBroken {leg}"),
            Cause::LegEnded { leg, partial } => write!(f, "2 LegEnded {leg} {partial}"),
            Cause::BadFrame { leg, place, fault } => write!(f, "3 BadFrame {leg} {place} {fault}"),
            Cause::BadPacket { leg, place, fault } => {
                write!(f, "4 BadPacket {leg} {place} {fault}")
            }
            Cause::Unexpected { leg, place } => write!(f, "5 Unexpected {leg} {place}"),
            Cause::CookieMismatch { leg, expected, got } => {
                write!(f, "6 CookieMismatch {leg} {expected} {got}")
            }
            Cause::WindowExceeded { leg, reached, edge } => {
                write!(f, "7 WindowExceeded {leg} {reached} {edge}")
            }
            Cause::OutOfRange { leg, command, value } => {
                write!(f, "8 OutOfRange {leg} {command} {value}")
            }
            Cause::HttpRefused { leg, status } => write!(f, "9 HttpRefused {leg} {status}"),
            Cause::BadHead { leg, place, fault } => write!(f, "10 BadHead {leg} {place} {fault:?}"),
            Cause::Silent { leg, since, now } => write!(f, "11 Silent {leg} {since} {now}"),
            Cause::ControlFull { leg } => write!(f, "12 ControlFull {leg}"),
            Cause::BodyOver { leg, count, length } => {
                write!(f, "13 BodyOver {leg} {count} {length}")
            }
        }
    }
}
