//! The in proxy.

use crate::intake::Stage;
use crate::leg::{Cause, Leg, LegKind};
use crate::node::{forward, Base, HeadOf, Port, Role, State};
use crate::rts::{Chain, Cookie, Packet, TO_CLIENT, TO_OUT_PROXY, TO_SERVER};
use crate::window::{agree, expect, RecvLine, Refused, Row, SendWindow};
use std::collections::VecDeque;

const DEFAULT_KEEPALIVE: u32 = 300_000;
const MOST_LEGS: usize = 2;
/// What the lengths of the client legs' requests may add up to where another leg is accepted.
const MOST_LENGTHS: u64 = 2_147_221_503;

pub struct Config {
    pub number: u32,
    pub window: u32,
    pub timeout: u32,
    pub address: [u8; 4],
}

pub struct InProxy {
    base: Base,
    config: Config,
    ins: Vec<InLeg>,
    newest: u32,
    lengths: u64,
    is: Option<Port>,
    /// CONN/B2 or IN_R1/A2, from the first packet on until it is put.
    opening: Option<Packet>,
    form: Form,
    connection: Cookie,
    /// The cookie with which the server leg was opened.
    own: Cookie,
    keepalive: u32,
    line: RecvLine,
    window: SendWindow,
    /// CONN/B3 or IN_R1/B2 came.
    told: bool,
    waiting: VecDeque<Packet>,
    end_put: bool,
    handover: Handover,
}

struct InLeg {
    port: Port,
    cookie: Cookie,
    a5_came: bool,
    ended: bool,
    pdu_came: bool,
    /// IN_R2/A2 for this leg's channel was put.
    announced: bool,
}

#[derive(Clone, Copy, PartialEq, Eq)]
enum Form {
    None,
    Conn,
    Successor,
}

/// IN_R1/A6.
#[derive(Clone, Copy, PartialEq, Eq)]
enum Handover {
    None,
    Due(Cookie),
    Put,
}

impl InProxy {
    pub fn new(config: Config, now: u64) -> InProxy {
        let mut base = Base::new();
        base.now = now;
        InProxy {
            base,
            ins: Vec::new(),
            newest: 0,
            lengths: 0,
            is: None,
            opening: None,
            form: Form::None,
            connection: Cookie::default(),
            own: Cookie::default(),
            keepalive: DEFAULT_KEEPALIVE,
            line: RecvLine::new(config.number, config.window),
            config,
            window: SendWindow::default(),
            told: false,
            waiting: VecDeque::new(),
            end_put: false,
            handover: Handover::None,
        }
    }

    pub fn up(&mut self, leg: Leg) {
        let now = self.base.now;
        if leg.kind == LegKind::InServer {
            self.is = Some(Port::new(leg, Stage::Greeting, now));
            self.base.state = State::Open;
            return;
        }
        // The leg before this one stays: the first packet here names its cookie.
        let before = self.newest;
        self.newest = leg.number;
        self.ins.retain(|leg| !leg.port.lost || leg.port.leg.number == before);
        let port = Port::new(leg, Stage::Request { inbound: true }, now);
        let cookie = Cookie::default();
        self.ins.push(InLeg {
            port,
            cookie,
            a5_came: false,
            ended: false,
            pdu_came: false,
            announced: false,
        });
    }

    fn in_leg(&mut self, number: u32) -> Option<&mut InLeg> {
        self.ins.iter_mut().find(|leg| leg.port.leg.number == number)
    }

    fn is_leg(&self) -> Leg {
        Leg::new(LegKind::InServer, self.config.number)
    }

    /// The first packet of a client leg.
    fn first(&mut self, number: u32, packet: Packet) -> Row {
        let Config { window, timeout, address, .. } = self.config;
        let is_first_leg = number == self.config.number;
        let (connection, cookie) = match packet {
            Packet::ConnB1 { connection, cookie, keepalive, group, .. } if is_first_leg => {
                self.form = Form::Conn;
                self.keepalive = if keepalive == 0 { DEFAULT_KEEPALIVE } else { keepalive };
                self.opening =
                    Some(Packet::ConnB2 { connection, cookie, window, timeout, group, address });
                (connection, cookie)
            }
            Packet::InR1A1(chain) if is_first_leg => {
                self.form = Form::Successor;
                self.opening = Some(Packet::InR1A2 { chain, window, timeout });
                (chain.connection, chain.successor)
            }
            Packet::InR1A1(chain) => return self.later(number, chain),
            _ => return Err(Refused::Unexpected),
        };
        self.connection = connection;
        self.own = cookie;
        if let Some(leg) = self.in_leg(number) {
            leg.cookie = cookie;
        }
        Ok(())
    }

    fn later(&mut self, number: u32, chain: Chain) -> Row {
        let before = self.in_leg(number - 1).map(|leg| leg.cookie).ok_or(Refused::Unexpected)?;
        agree(self.connection, chain.connection)?;
        agree(before, chain.predecessor)?;
        if let Some(leg) = self.in_leg(number) {
            leg.cookie = chain.successor;
        }
        self.line.open_next(number, false);
        self.waiting.push_back(Packet::InR2A2 { successor: chain.successor });
        Ok(())
    }

    /// A packet behind the first one of a client leg.
    fn further(&mut self, number: u32, packet: Packet) -> Row {
        let newest = self.newest;
        let pdu_later = self.ins.iter().any(|leg| leg.port.leg.number > number && leg.pdu_came);
        let next = self.ins.iter().find(|leg| leg.port.leg.number == number + 1);
        let next = next.filter(|next| next.announced).map(|next| next.cookie);
        let is_leg = self.is_leg();
        let leg = self.in_leg(number).filter(|leg| !leg.a5_came).ok_or(Refused::Unexpected)?;
        match packet {
            Packet::AckTo { to: TO_OUT_PROXY, .. } | Packet::OutR1A7 { to: TO_SERVER, .. } => {
                forward(&mut self.waiting, packet, is_leg)
            }
            Packet::KeepAlive(keepalive) => {
                self.keepalive = if keepalive == 0 { DEFAULT_KEEPALIVE } else { keepalive };
                Ok(())
            }
            Packet::End => {
                expect(!leg.ended && !pdu_later)?;
                leg.ended = true;
                self.line.end(number);
                Ok(())
            }
            Packet::InR1A5 { successor } if number == newest => {
                leg.a5_came = true;
                self.handover = Handover::Due(successor);
                Ok(())
            }
            Packet::InR1A5 { successor } => {
                agree(next.ok_or(Refused::Unexpected)?, successor)?;
                leg.a5_came = true;
                leg.port.done = true;
                self.line.finish();
                Ok(())
            }
            _ => Err(Refused::Unexpected),
        }
    }

    fn from_server(&mut self, packet: Packet) -> Row {
        match packet {
            Packet::ConnB3 { window } if self.form == Form::Conn && !self.told => self.tell(window),
            Packet::InR1B2 { window } if self.form == Form::Successor && !self.told => {
                self.tell(window)
            }
            Packet::Ack(ack) if self.told => {
                agree(self.own, ack.cookie)?;
                self.window.acked(&ack)
            }
            Packet::InR1B1 if self.handover == Handover::Put => {
                self.end();
                Ok(())
            }
            _ => Err(Refused::Unexpected),
        }
    }

    fn tell(&mut self, window: u32) -> Row {
        self.told = true;
        self.window.set_edge(window);
        Ok(())
    }

    fn put_ack(&mut self, out: &mut Vec<u8>) -> bool {
        for leg in &mut self.ins {
            if leg.ended || leg.a5_came {
                continue;
            }
            let Some(channel) = self.line.channel(leg.port.leg.number) else { continue };
            if let Some(ack) = channel.due(leg.cookie) {
                channel.acknowledged(&ack);
                Packet::AckTo { to: TO_CLIENT, ack }.write(out);
                return true;
            }
        }
        false
    }

    /// END/A2 or IN_R1/A6 behind the last PDU.
    fn put_mark(&mut self, out: &mut Vec<u8>) -> bool {
        if !self.line.current.is_empty() {
            return false;
        }
        if self.line.current.ended && !self.end_put {
            self.end_put = true;
            Packet::End.write(out);
            return true;
        }
        match self.handover {
            Handover::Due(successor) if self.line.current.number == self.newest => {
                self.handover = Handover::Put;
                Packet::InR1A5 { successor }.write(out);
                true
            }
            _ => false,
        }
    }

    /// Whether the newest client leg was ended behind its END/A1 and nothing is left to put on the
    /// server leg.
    fn is_over(&self) -> bool {
        let Some(newest) = self.ins.last().filter(|leg| leg.port.leg.number == self.newest) else {
            return false;
        };
        let Some(is) = &self.is else { return false };
        let ended = newest.port.lost && newest.ended && !newest.a5_came;
        let empty = self.line.current.is_empty()
            && self.line.next.as_ref().is_none_or(|next| next.is_empty());
        let acks = self.ins.iter().any(|leg| {
            let line = [Some(&self.line.current), self.line.next.as_ref()].into_iter().flatten();
            let mut channel = line.filter(|channel| channel.number == leg.port.leg.number);
            !leg.ended && !leg.a5_came && channel.any(|channel| channel.due(leg.cookie).is_some())
        });
        ended
            && empty
            && !acks
            && self.end_put
            && self.opening.is_none()
            && self.waiting.is_empty()
            && !is.ping
    }
}

impl Role for InProxy {
    fn base(&self) -> &Base {
        &self.base
    }

    fn base_mut(&mut self) -> &mut Base {
        &mut self.base
    }

    fn port(&mut self, leg: Leg) -> Option<&mut Port> {
        match leg.kind {
            LegKind::ClientIn => self.in_leg(leg.number).map(|leg| &mut leg.port),
            _ => self.is.as_mut(),
        }
    }

    fn ports(&mut self) -> Box<dyn Iterator<Item = &mut Port> + '_> {
        Box::new(self.ins.iter_mut().map(|leg| &mut leg.port).chain(&mut self.is))
    }

    fn hears_up(&self, leg: Leg) -> bool {
        leg.kind == LegKind::ClientIn
    }

    fn refusal_leg(&self) -> Option<Leg> {
        Some(Leg::new(LegKind::ClientIn, self.config.number))
    }

    fn wants(&self, leg: Leg) -> bool {
        leg == self.is_leg() && self.is_live() && self.opening.is_some() && self.is.is_none()
    }

    fn may_up(&self, leg: Leg) -> bool {
        if leg.kind == LegKind::InServer {
            return self.wants(leg);
        }
        if self.newest == 0 {
            return self.is_live() && leg.number == self.config.number;
        }
        self.is_live()
            && self.form != Form::None
            && self.newest.checked_add(1) == Some(leg.number)
            && self.ins.iter().filter(|leg| !leg.port.is_finished()).count() < MOST_LEGS
            && self.line.current.number == self.newest
            && self.lengths <= MOST_LENGTHS
            && self.handover == Handover::None
    }

    fn head(&mut self, leg: Leg, head: HeadOf) -> Result<(), Cause> {
        let HeadOf::Request(request) = head else { return Ok(()) };
        if request.echo {
            self.answer_echo(leg);
        } else {
            self.lengths += u64::from(request.length);
        }
        Ok(())
    }

    fn packet(&mut self, leg: Leg, packet: Packet, first: bool) -> Row {
        match leg.kind {
            LegKind::InServer => self.from_server(packet),
            _ if first => self.first(leg.number, packet),
            _ => self.further(leg.number, packet),
        }
    }

    fn pdu(&mut self, leg: Leg, pdu: &[u8], first: bool) -> Row {
        expect(leg.kind == LegKind::ClientIn && !first)?;
        let earlier_end =
            self.ins.iter().any(|other| other.port.leg.number < leg.number && other.ended);
        let number = leg.number;
        let leg = self.in_leg(number).filter(|leg| !leg.a5_came && !leg.ended && !earlier_end);
        leg.ok_or(Refused::Unexpected)?.pdu_came = true;
        self.line.channel(number).ok_or(Refused::Unexpected)?.admit(pdu)
    }

    fn put(&mut self, leg: Leg, out: &mut Vec<u8>) -> bool {
        if leg.kind != LegKind::InServer {
            return false;
        }
        if let Some(packet) = self.opening.take().or_else(|| self.waiting.pop_front()) {
            packet.write(out);
            if let (Packet::InR2A2 { .. }, Some(leg)) = (packet, self.ins.last_mut()) {
                leg.announced = true;
            }
            return true;
        }
        if self.put_ack(out) {
            return true;
        }
        if let Some(len) = self.line.current.front_len().filter(|&len| self.window.may_send(len)) {
            self.window.sent(len);
            *out = self.line.pop().unwrap_or_default();
            return true;
        }
        if self.put_mark(out) {
            return true;
        }
        let Some(port) = self.is.as_mut().filter(|port| port.ping) else { return false };
        port.ping = false;
        Packet::Ping.write(out);
        true
    }

    fn after(&mut self) {
        if self.is_live() && (self.echoed() || self.is_over()) {
            self.end();
        }
    }

    fn only_marks(&self, leg: Leg) -> bool {
        let own = self.ins.iter().find(|own| own.port.leg == leg);
        own.is_some_and(|own| own.ended || own.a5_came)
    }

    fn pass(&mut self, now: u64) -> Option<Cause> {
        let timeout = self.config.timeout;
        let mut watched = self.ins.iter().filter(|leg| !leg.a5_came);
        if let Some(cause) = watched.find_map(|leg| leg.port.silence(timeout, now)) {
            return Some(cause);
        }
        if let Some(port) = &mut self.is {
            port.ping_after(self.keepalive, now);
        }
        None
    }
}

impl InProxy {
    fn answer_echo(&mut self, leg: Leg) {
        if let Some(port) = self.port(leg) {
            port.answer_echo();
        }
    }

    fn echoed(&self) -> bool {
        self.ins.iter().any(|leg| leg.port.echoed())
    }
}
