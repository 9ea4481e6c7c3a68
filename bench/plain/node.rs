//! What all four roles do on their legs.

use crate::http;
use crate::intake::{Intake, Item, Stage};
use crate::leg::{Cause, Leg};
use crate::pdu::PTYPE_RTS;
use crate::rts::{self, Packet, Unreadable};
use crate::window::{Refused, Row};
use std::collections::VecDeque;
use std::mem;

/// The bytes of an Echo packet.
const ECHO_LEN: u64 = 20;

#[derive(Clone, Copy, PartialEq, Eq, Debug)]
pub enum State {
    Opening,
    Open,
    Ended,
    Closed(Cause),
}

/// What every role has: its state and the moment.
pub struct Base {
    pub state: State,
    pub now: u64,
}

impl Base {
    pub fn new() -> Base {
        Base { state: State::Opening, now: 0 }
    }

    pub fn is_live(&self) -> bool {
        matches!(self.state, State::Opening | State::Open)
    }
}

/// One leg at one node, from its `up` on.
pub struct Port {
    pub leg: Leg,
    intake: Intake,
    begun: Vec<u8>,
    drawn: usize,
    /// Whether what is begun is drawn also after a close.
    refusal: bool,
    /// What was begun first answers an echo request.
    echo: bool,
    /// The role has no use for the leg any more.
    pub done: bool,
    /// The leg is ended or broken.
    pub lost: bool,
    /// The moment of its `up` or of the last bytes that came.
    pub since: u64,
    /// The moment of its `up` or of the last put.
    put_at: u64,
    /// A Ping is due.
    pub ping: bool,
}

impl Port {
    pub fn new(leg: Leg, stage: Stage, now: u64) -> Port {
        Port {
            leg,
            intake: Intake::new(stage),
            begun: Vec::new(),
            drawn: 0,
            refusal: false,
            echo: false,
            done: false,
            lost: false,
            since: now,
            put_at: now,
            ping: false,
        }
    }

    pub fn is_finished(&self) -> bool {
        self.lost || (self.done && self.begun.is_empty())
    }

    pub fn is_usable(&self) -> bool {
        !self.lost && !self.done
    }

    /// Begins the answer to an echo request.
    pub fn answer_echo(&mut self) {
        http::write_response(&mut self.begun, ECHO_LEN);
        Packet::Echo.write(&mut self.begun);
        self.echo = true;
    }

    /// Whether an echo request was answered to the last byte.
    pub fn echoed(&self) -> bool {
        self.echo && self.begun.is_empty()
    }

    /// Makes a Ping due where nothing was put for half of a time.
    pub fn ping_after_half(&mut self, timeout: u32, now: u64) {
        self.ping |= self.is_usable() && 2 * (now - self.put_at) >= u64::from(timeout);
    }

    /// Makes a Ping due where nothing was put for so long.
    pub fn ping_after(&mut self, time: u32, now: u64) {
        self.ping |= self.is_usable() && now - self.put_at >= u64::from(time);
    }

    /// The cause where nothing came for so long.
    pub fn silence(&self, timeout: u32, now: u64) -> Option<Cause> {
        let silent = !self.is_finished() && now - self.since >= u64::from(timeout);
        silent.then_some(Cause::Silent { leg: self.leg, since: self.since, now })
    }
}

/// A head that a role asked for.
pub enum HeadOf {
    Request(http::Request),
    Response(http::Response),
}

/// A role: its tables, and the calls that all roles share.
pub trait Role {
    fn base(&self) -> &Base;
    fn base_mut(&mut self) -> &mut Base;
    fn port(&mut self, leg: Leg) -> Option<&mut Port>;
    fn ports(&mut self) -> Box<dyn Iterator<Item = &mut Port> + '_>;
    fn wants(&self, leg: Leg) -> bool;
    fn may_up(&self, leg: Leg) -> bool;
    /// The rows of a head, a packet and a PDU. `first`: it is the first one of the leg.
    fn head(&mut self, leg: Leg, head: HeadOf) -> Result<(), Cause>;
    fn packet(&mut self, leg: Leg, packet: Packet, first: bool) -> Row;
    fn pdu(&mut self, leg: Leg, pdu: &[u8], first: bool) -> Row;
    /// Puts the next packet or PDU of a leg; false where none may go.
    fn put(&mut self, leg: Leg, out: &mut Vec<u8>) -> bool;
    /// Does what follows from the state after each step.
    fn after(&mut self);
    /// Whether an end or a break of this leg only marks it.
    fn only_marks(&self, leg: Leg) -> bool;
    /// The cause of the lowest silent leg, else makes Pings due.
    fn pass(&mut self, now: u64) -> Option<Cause>;
    /// The client leg on which a refused connection of the server leg is told.
    fn refusal_leg(&self) -> Option<Leg> {
        None
    }

    fn is_live(&self) -> bool {
        self.base().is_live()
    }

    fn finished(&mut self, leg: Leg) -> bool {
        let closed = matches!(self.base().state, State::Closed(_));
        match self.port(leg) {
            Some(port) if closed => !port.refusal || port.begun.is_empty() || port.lost,
            Some(port) => port.is_finished(),
            None => true,
        }
    }

    fn close(&mut self, cause: Cause) {
        if self.is_live() {
            self.base_mut().state = State::Closed(cause);
        }
    }

    /// The state Ended: no leg is of use any more.
    fn end(&mut self) {
        self.base_mut().state = State::Ended;
        self.ports().for_each(|port| port.done = true);
    }

    /// Puts a refusal's head on a proxy's client leg, unless another head was begun there.
    fn refuse(&mut self, leg: Leg, status: &str) {
        if let Some(port) = self.port(leg).filter(|port| port.begun.is_empty()) {
            http::write_refusal(&mut port.begun, status);
            port.refusal = true;
        }
    }

    fn bytes(&mut self, leg: Leg, piece: &[u8]) {
        if piece.is_empty() || !self.is_live() {
            return;
        }
        let now = self.base().now;
        let Some(port) = self.port(leg).filter(|port| port.is_usable()) else { return };
        port.since = now;
        let mut intake = mem::take(&mut port.intake);
        let heard = self.hear(leg, &mut intake, piece);
        if let Some(port) = self.port(leg) {
            port.intake = intake;
        }
        let Err(cause) = heard else { return };
        match cause {
            Cause::BadHead { fault, .. } if self.hears_up(leg) => {
                self.refuse(leg, http::refusal_of(fault))
            }
            _ => {}
        }
        self.close(cause);
    }

    fn hear(&mut self, leg: Leg, intake: &mut Intake, piece: &[u8]) -> Result<(), Cause> {
        let mut rest = piece;
        loop {
            let first = !intake.first_came;
            let mut is_first = false;
            match intake.next(&mut rest) {
                Item::Need if rest.is_empty() => return Ok(()),
                Item::Need | Item::Greeting => {}
                Item::Request(request) => self.head(leg, HeadOf::Request(request))?,
                Item::Response(response) => self.head(leg, HeadOf::Response(response))?,
                Item::Frame { place, bytes } => is_first = self.frame(leg, place, bytes, first)?,
                Item::BadGreeting => return Err(Cause::Unexpected { leg, place: 0 }),
                Item::BadFrame { place, fault } => {
                    return Err(Cause::BadFrame { leg, place, fault })
                }
                Item::BadHead { place, fault } => return Err(Cause::BadHead { leg, place, fault }),
                Item::BodyOver { length } => {
                    return Err(Cause::BodyOver { leg, count: length + 1, length })
                }
            }
            intake.first_came |= is_first;
            self.after();
            if !self.is_live() || !self.port(leg).is_some_and(|port| port.is_usable()) {
                return Ok(());
            }
        }
    }

    /// Takes a frame; answers whether it was more than a Ping.
    fn frame(&mut self, leg: Leg, place: u64, bytes: &[u8], first: bool) -> Result<bool, Cause> {
        let row = if bytes[2] != PTYPE_RTS {
            self.pdu(leg, bytes, first)
        } else {
            let up = self.hears_up(leg);
            match rts::read(bytes, leg.kind, up) {
                // Towards the client a head or a greeting stands before a Ping already.
                Ok(Packet::Ping) if !first || !up => return Ok(false),
                Ok(Packet::Ping) => Err(Refused::Unexpected),
                Ok(packet) => self.packet(leg, packet, first),
                Err(Unreadable::Rts(fault)) => return Err(Cause::BadPacket { leg, place, fault }),
                Err(Unreadable::Unknown) => Err(Refused::Unexpected),
                Err(Unreadable::OutOfRange { command, value }) => {
                    Err(Refused::Range { command, value })
                }
            }
        };
        row.map(|()| true).map_err(|refused| match refused {
            Refused::Unexpected => Cause::Unexpected { leg, place },
            Refused::Cookie { expected, got } => Cause::CookieMismatch { leg, expected, got },
            Refused::Window { reached, edge } => Cause::WindowExceeded { leg, reached, edge },
            Refused::Range { command, value } => Cause::OutOfRange { leg, command, value },
            Refused::Full(leg) => Cause::ControlFull { leg },
        })
    }

    /// Whether what comes on this leg goes towards the server.
    fn hears_up(&self, leg: Leg) -> bool;

    fn ended(&mut self, leg: Leg) {
        let partial = self.port(leg).map_or(0, |port| port.intake.partial());
        self.lose(leg, Cause::LegEnded { leg, partial });
    }

    fn broken(&mut self, leg: Leg) {
        if self.wants(leg) {
            if let Some(client_leg) = self.refusal_leg() {
                self.refuse(client_leg, http::UNAVAILABLE);
            }
            self.close(Cause::LegBroken { leg });
        } else {
            self.lose(leg, Cause::LegBroken { leg });
        }
    }

    fn lose(&mut self, leg: Leg, cause: Cause) {
        let live = self.is_live();
        let marks = self.only_marks(leg);
        let Some(port) = self.port(leg).filter(|port| !port.lost) else { return };
        let passes = !live || port.is_finished() || marks;
        port.lost = true;
        match passes {
            true => self.after(),
            false => self.close(cause),
        }
    }

    fn tick(&mut self, now: u64) {
        if !self.is_live() || now < self.base().now {
            return;
        }
        self.base_mut().now = now;
        match self.pass(now) {
            Some(cause) => self.close(cause),
            None => self.after(),
        }
    }

    /// Draws up to `most` bytes of a leg into its bytes in flight; answers how many.
    fn draw(&mut self, leg: Leg, most: usize, flight: &mut VecDeque<u8>) -> usize {
        let mut left = most;
        while left > 0 {
            let live = self.is_live();
            let (now, closed) = (self.base().now, matches!(self.base().state, State::Closed(_)));
            let Some(port) = self.port(leg).filter(|port| !port.lost) else { break };
            if !port.begun.is_empty() {
                if closed && !port.refusal {
                    break;
                }
                let len = left.min(port.begun.len() - port.drawn);
                flight.extend(&port.begun[port.drawn..port.drawn + len]);
                port.drawn += len;
                left -= len;
                if port.drawn == port.begun.len() {
                    port.drawn = 0;
                    port.begun.clear();
                    self.after();
                }
                continue;
            }
            if !live || port.done {
                break;
            }
            let mut begun = mem::take(&mut port.begun);
            let put = self.put(leg, &mut begun);
            if let Some(port) = self.port(leg) {
                port.begun = begun;
                if put {
                    port.put_at = now;
                }
            }
            if !put {
                break;
            }
            self.after();
        }
        most - left
    }
}

/// Pushes a packet that is to be forwarded on `leg` behind those that wait there.
pub fn forward(waiting: &mut VecDeque<Packet>, packet: Packet, leg: Leg) -> Row {
    if let Packet::AckTo { to, ack } = packet {
        for waits in waiting.iter_mut() {
            if merge(waits, to, &ack) {
                return Ok(());
            }
        }
    }
    if waiting.iter().filter(|waits| is_forwarded(waits)).count() >= MOST_FORWARDED {
        return Err(Refused::Full(leg));
    }
    waiting.push_back(packet);
    Ok(())
}

pub const MOST_FORWARDED: usize = 16;

/// Whether a packet that waits in a proxy is one to be forwarded, and not the proxy's own.
fn is_forwarded(packet: &Packet) -> bool {
    !matches!(packet, Packet::InR2A2 { .. })
}

/// Merges an acknowledgement with a packet that waits, where destination and cookie are the same.
pub fn merge(waits: &mut Packet, to: u32, newer: &rts::Ack) -> bool {
    match waits {
        Packet::AckTo { to: older_to, ack } if *older_to == to && ack.cookie == newer.cookie => {
            if newer.edge() >= ack.edge() {
                *ack = *newer;
            }
            true
        }
        _ => false,
    }
}
