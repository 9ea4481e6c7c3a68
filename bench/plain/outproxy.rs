//! The out proxy.

use crate::http;
use crate::intake::Stage;
use crate::leg::{Cause, Leg, LegKind};
use crate::node::{forward, Base, HeadOf, Port, Role, State};
use crate::rts::{Cookie, Packet, TO_CLIENT, TO_OUT_PROXY};
use crate::window::{agree, expect, RecvLine, Refused, Row, SendWindow};
use std::collections::VecDeque;

pub struct Config {
    pub number: u32,
    pub window: u32,
    pub lifetime: u32,
    pub timeout: u32,
}

pub struct OutProxy {
    base: Base,
    config: Config,
    co: Option<Port>,
    os: Option<Port>,
    /// The length of the request's body.
    length: u32,
    stage: Stages,
    /// CONN/A2 or OUT_R1/A4.
    opening: Option<Packet>,
    response: Response,
    cookie: Cookie,
    line: RecvLine,
    window: SendWindow,
    waiting: VecDeque<Packet>,
    end_came: bool,
    end_put: bool,
    a9_came: bool,
    pings: u32,
}

/// What came of the packets that open the channel.
#[derive(Clone, Copy, PartialEq, Eq)]
enum Stages {
    None,
    ConnA1,
    ConnC1,
    OutR1A3,
    OutR2C1,
}

#[derive(Clone, Copy, PartialEq, Eq)]
enum Response {
    Untold,
    Head,
    ConnA3,
    Put,
}

impl OutProxy {
    pub fn new(config: Config, now: u64) -> OutProxy {
        let mut base = Base::new();
        base.now = now;
        OutProxy {
            base,
            co: None,
            os: None,
            length: 0,
            stage: Stages::None,
            opening: None,
            response: Response::Untold,
            cookie: Cookie::default(),
            line: RecvLine::new(config.number, config.window),
            config,
            window: SendWindow::default(),
            waiting: VecDeque::new(),
            end_came: false,
            end_put: false,
            a9_came: false,
            pings: 0,
        }
    }

    pub fn up(&mut self, leg: Leg) {
        let now = self.base.now;
        if leg.kind == LegKind::ClientOut {
            self.co = Some(Port::new(leg, Stage::Request { inbound: false }, now));
        } else {
            self.os = Some(Port::new(leg, Stage::Greeting, now));
            self.base.state = State::Open;
            self.response = Response::Head;
        }
    }

    fn leg(&self, kind: LegKind) -> Leg {
        Leg::new(kind, self.config.number)
    }

    fn from_client(&mut self, packet: Packet, first: bool) -> Row {
        let Config { window: own_window, lifetime, timeout, .. } = self.config;
        match packet {
            Packet::ConnA1 { connection, cookie, window } => {
                expect(first && self.length == http::OUT_LENGTH)?;
                self.stage = Stages::ConnA1;
                self.cookie = cookie;
                self.window.set_edge(window);
                self.opening =
                    Some(Packet::ConnA2 { connection, cookie, lifetime, window: own_window });
            }
            Packet::OutR1A3 { chain, window } => {
                expect(first && self.length == http::OUT_SUCCESSOR_LENGTH)?;
                self.stage = Stages::OutR1A3;
                self.cookie = chain.successor;
                self.window.set_edge(window);
                self.opening =
                    Some(Packet::OutR1A4 { chain, lifetime, window: own_window, timeout });
            }
            Packet::OutR2C1 => {
                expect(self.stage == Stages::OutR1A3)?;
                self.stage = Stages::OutR2C1;
            }
            _ => return Err(Refused::Unexpected),
        }
        Ok(())
    }

    fn is_opened(&self) -> bool {
        matches!(self.stage, Stages::ConnC1 | Stages::OutR1A3 | Stages::OutR2C1)
    }

    fn from_server(&mut self, packet: Packet) -> Row {
        if let Packet::ConnC { .. } = packet {
            expect(self.stage == Stages::ConnA1)?;
            self.forward(packet)?;
            self.stage = Stages::ConnC1;
            return Ok(());
        }
        expect(self.is_opened())?;
        match packet {
            Packet::AckTo { to: TO_OUT_PROXY, ack } => {
                agree(self.cookie, ack.cookie)?;
                return self.window.acked(&ack);
            }
            _ => expect(!self.a9_came)?,
        }
        match packet {
            Packet::AckTo { to: TO_CLIENT, .. }
            | Packet::InR1A3 { to: TO_CLIENT, .. }
            | Packet::InR2A3 { to: TO_CLIENT }
            | Packet::OutR1A1 { to: TO_CLIENT }
            | Packet::OutR1A5 { to: TO_CLIENT, .. } => self.forward(packet)?,
            Packet::End => {
                expect(!self.end_came)?;
                self.end_came = true;
                self.line.end(self.config.number);
            }
            Packet::OutR1A9 => self.a9_came = true,
            _ => return Err(Refused::Unexpected),
        }
        Ok(())
    }

    /// What would be forwarded on an ended leg is dropped.
    fn forward(&mut self, packet: Packet) -> Row {
        let leg = self.leg(LegKind::ClientOut);
        match &self.co {
            Some(port) if port.is_usable() => forward(&mut self.waiting, packet, leg),
            _ => Ok(()),
        }
    }

    fn put_response(&mut self, out: &mut Vec<u8>) -> bool {
        let is_conn = matches!(self.stage, Stages::ConnA1 | Stages::ConnC1);
        self.response = match self.response {
            Response::Head => {
                http::write_response(
                    out,
                    u64::from(self.config.lifetime) + u64::from(http::ABOVE_LIFETIME),
                );
                if is_conn {
                    Response::ConnA3
                } else {
                    Response::Put
                }
            }
            Response::ConnA3 => {
                Packet::ConnA3 { timeout: self.config.timeout }.write(out);
                Response::Put
            }
            Response::Untold | Response::Put => return false,
        };
        true
    }

    fn put_to_client(&mut self, out: &mut Vec<u8>) -> bool {
        if self.response == Response::Untold {
            return false;
        }
        if self.put_response(out) {
            return true;
        }
        if let Some(packet) = self.waiting.pop_front() {
            packet.write(out);
            return true;
        }
        if let Some(len) = self.line.current.front_len() {
            if self.window.may_send(len) {
                self.window.sent(len);
                *out = self.line.pop().unwrap_or_default();
                return true;
            }
        } else if self.end_came && !self.end_put {
            self.end_put = true;
            Packet::End.write(out);
            return true;
        } else if self.a9_came {
            Packet::OutR1A9.write(out);
            self.end();
            return true;
        }
        const PING_LEN: u32 = 20;
        let room = self.pings + PING_LEN <= http::ABOVE_LIFETIME;
        let Some(port) = self.co.as_mut().filter(|port| port.ping && room) else { return false };
        port.ping = false;
        self.pings += PING_LEN;
        Packet::Ping.write(out);
        true
    }

    fn put_to_server(&mut self, out: &mut Vec<u8>) -> bool {
        if let Some(packet) = self.opening.take() {
            packet.write(out);
            return true;
        }
        if self.end_came || self.a9_came {
            return false;
        }
        let Some(ack) = self.line.current.due(self.cookie) else { return false };
        self.line.current.acknowledged(&ack);
        Packet::Ack(ack).write(out);
        true
    }
}

impl Role for OutProxy {
    fn base(&self) -> &Base {
        &self.base
    }

    fn base_mut(&mut self) -> &mut Base {
        &mut self.base
    }

    fn port(&mut self, leg: Leg) -> Option<&mut Port> {
        match leg.kind {
            LegKind::ClientOut => self.co.as_mut(),
            _ => self.os.as_mut(),
        }
    }

    fn ports(&mut self) -> Box<dyn Iterator<Item = &mut Port> + '_> {
        Box::new(self.co.iter_mut().chain(&mut self.os))
    }

    fn hears_up(&self, leg: Leg) -> bool {
        leg.kind == LegKind::ClientOut
    }

    fn refusal_leg(&self) -> Option<Leg> {
        Some(self.leg(LegKind::ClientOut))
    }

    fn wants(&self, leg: Leg) -> bool {
        leg == self.leg(LegKind::OutServer)
            && self.is_live()
            && self.opening.is_some()
            && self.os.is_none()
    }

    fn may_up(&self, leg: Leg) -> bool {
        match leg.kind {
            LegKind::ClientOut => {
                self.is_live() && self.co.is_none() && leg.number == self.config.number
            }
            _ => self.wants(leg),
        }
    }

    fn head(&mut self, _: Leg, head: HeadOf) -> Result<(), Cause> {
        let HeadOf::Request(request) = head else { return Ok(()) };
        self.length = request.length;
        if let Some(port) = self.co.as_mut().filter(|_| request.echo) {
            port.answer_echo();
        }
        Ok(())
    }

    fn packet(&mut self, leg: Leg, packet: Packet, first: bool) -> Row {
        match leg.kind {
            LegKind::ClientOut => self.from_client(packet, first),
            _ => self.from_server(packet),
        }
    }

    fn pdu(&mut self, leg: Leg, pdu: &[u8], _: bool) -> Row {
        let from_server = leg.kind == LegKind::OutServer;
        expect(from_server && self.is_opened() && !self.a9_came && !self.end_came)?;
        self.line.current.admit(pdu)
    }

    fn put(&mut self, leg: Leg, out: &mut Vec<u8>) -> bool {
        match leg.kind {
            LegKind::ClientOut => self.put_to_client(out),
            _ => self.put_to_server(out),
        }
    }

    fn after(&mut self) {
        let lost = self.os.as_ref().is_some_and(|port| port.lost);
        let echoed = self.co.as_ref().is_some_and(|port| port.echoed());
        if self.is_live() && (lost || echoed) {
            self.end();
        }
    }

    fn only_marks(&self, _: Leg) -> bool {
        self.end_put
    }

    fn pass(&mut self, now: u64) -> Option<Cause> {
        let told = matches!(self.response, Response::ConnA3 | Response::Put);
        if let Some(port) = self.co.as_mut().filter(|_| told) {
            port.ping_after_half(self.config.timeout, now);
        }
        None
    }
}
