//! The client.

use crate::http;
use crate::intake::Stage;
use crate::leg::{Cause, Leg, LegKind};
use crate::node::{Base, HeadOf, Port, Role, State};
use crate::rts::{Chain, Cookie, Packet, TO_CLIENT, TO_OUT_PROXY, TO_SERVER};
use crate::window::{expect, Giving, Keeps, Meter, Queue, RecvLine, Refused, Row, Take};
use std::collections::VecDeque;

/// Half of this is the time after which a Ping becomes due where no timeout was told.
const UNTOLD_TIMEOUT: u32 = 120_000;
/// The unfinished legs of a kind while which no successor is wanted.
const MOST_LEGS: usize = 2;

#[derive(Clone, Copy)]
pub struct Config {
    pub connection: Cookie,
    pub group: Cookie,
    pub window: u32,
    pub lifetime: u32,
    pub keepalive: u32,
}

pub struct Client {
    base: Base,
    config: Config,
    queue: Queue,
    line: RecvLine,
    outs: Vec<OutLeg>,
    ins: Vec<InLeg>,
    newest_out: u32,
    /// The newest IN leg and the writing IN channel.
    newest_in: u32,
    writing: u32,
    /// What CONN/C2 told, until IN 1 is up.
    first_in: Option<(u32, u32)>,
    /// Packets due on the writing IN channel.
    due: VecDeque<Packet>,
    under_way: UnderWay,
    waiting: VecDeque<Wish>,
}

struct OutLeg {
    port: Port,
    cookie: Cookie,
    opening: VecDeque<Opening>,
    timeout: Option<u32>,
    ended: bool,
}

struct InLeg {
    port: Port,
    cookie: Cookie,
    opening: VecDeque<Opening>,
    giving: Giving,
    told_window: u32,
    timeout: Option<u32>,
}

#[derive(Clone, Copy)]
enum Opening {
    Head,
    Packet(Packet),
}

#[derive(Clone, Copy, PartialEq, Eq)]
enum Wish {
    In,
    Out,
}

/// The replacement under way, with the number of the successor.
#[derive(Clone, Copy, PartialEq, Eq)]
enum UnderWay {
    None,
    In { to: u32, answered: bool },
    Out { to: u32, answered: bool, a7_put: bool },
}

pub enum RecycleFault {
    Busy(Leg),
    NotOpen,
    Last,
}

fn co(number: u32) -> Leg {
    Leg::new(LegKind::ClientOut, number)
}

fn ci(number: u32) -> Leg {
    Leg::new(LegKind::ClientIn, number)
}

impl Client {
    pub fn new(config: Config) -> Client {
        Client {
            base: Base::new(),
            line: RecvLine::new(1, config.window),
            config,
            queue: Queue::default(),
            outs: Vec::new(),
            ins: Vec::new(),
            newest_out: 0,
            newest_in: 0,
            writing: 1,
            first_in: None,
            due: VecDeque::new(),
            under_way: UnderWay::None,
            waiting: VecDeque::new(),
        }
    }

    pub fn up(&mut self, leg: Leg, cookie: Cookie) {
        let port = Port::new(leg, Stage::Response, self.base.now);
        match leg.kind {
            LegKind::ClientOut => self.up_out(port, cookie),
            _ => self.up_in(port, cookie),
        }
    }

    fn up_out(&mut self, port: Port, cookie: Cookie) {
        let (number, Config { connection, window, .. }) = (port.leg.number, self.config);
        let mut opening = VecDeque::from([Opening::Head]);
        if number == 1 {
            opening.push_back(Opening::Packet(Packet::ConnA1 { connection, cookie, window }));
        } else {
            let predecessor = self.out_cookie(number - 1);
            let chain = Chain { connection, predecessor, successor: cookie };
            opening.push_back(Opening::Packet(Packet::OutR1A3 { chain, window }));
            opening.push_back(Opening::Packet(Packet::OutR2C1));
            self.line.open_next(number, false);
        }
        self.newest_out = number;
        self.outs.retain(|out| !out.port.lost);
        self.outs.push(OutLeg { port, cookie, opening, timeout: None, ended: false });
    }

    fn up_in(&mut self, port: Port, cookie: Cookie) {
        let Config { connection, lifetime, keepalive, group, .. } = self.config;
        let predecessor = self.ins.iter().find(|leg| leg.port.leg.number == self.writing);
        let packet = match predecessor.map(|leg| leg.cookie) {
            None => Packet::ConnB1 { connection, cookie, lifetime, keepalive, group },
            Some(predecessor) => {
                Packet::InR1A1(Chain { connection, predecessor, successor: cookie })
            }
        };
        self.newest_in = port.leg.number;
        let mut leg = InLeg {
            port,
            cookie,
            opening: VecDeque::from([Opening::Head, Opening::Packet(packet)]),
            giving: Giving::new(Meter::new(lifetime, 0)),
            told_window: 0,
            timeout: None,
        };
        if let Some((window, timeout)) = self.first_in.take() {
            leg.tell(window, timeout);
        }
        self.ins.retain(|leg| !leg.port.lost);
        self.ins.push(leg);
    }

    fn out_cookie(&self, number: u32) -> Cookie {
        self.outs
            .iter()
            .find(|leg| leg.port.leg.number == number)
            .map_or(Cookie::default(), |leg| leg.cookie)
    }

    fn out_leg(&mut self, number: u32) -> Option<&mut OutLeg> {
        self.outs.iter_mut().find(|leg| leg.port.leg.number == number)
    }

    fn in_leg(&mut self, number: u32) -> Option<&mut InLeg> {
        self.ins.iter_mut().find(|leg| leg.port.leg.number == number)
    }

    fn is_open(&self) -> bool {
        self.base.state == State::Open
    }

    /// The OUT and the IN leg that are wanted.
    pub fn wanted(&self) -> (Option<Leg>, Option<Leg>) {
        let legs = (co(self.newest_out + 1), ci(self.newest_in + 1));
        (Some(legs.0).filter(|&leg| self.wants(leg)), Some(legs.1).filter(|&leg| self.wants(leg)))
    }

    pub fn queue(&mut self) -> &mut Queue {
        &mut self.queue
    }

    pub fn take(&mut self) -> Take {
        let taken = self.line.take();
        self.after();
        taken
    }

    pub fn close_giving(&mut self) {
        self.queue.close();
        self.after();
    }

    /// The writing IN and the current OUT channel.
    pub fn channels(&self) -> (u32, u32) {
        (self.writing, self.line.current.number)
    }

    pub fn recycle(&mut self) -> Result<(), RecycleFault> {
        if !self.is_open() {
            return Err(RecycleFault::NotOpen);
        }
        match self.under_way {
            UnderWay::In { to, .. } => return Err(RecycleFault::Busy(ci(to))),
            UnderWay::Out { to, .. } => return Err(RecycleFault::Busy(co(to))),
            UnderWay::None => {}
        }
        let to = self.writing.checked_add(1).ok_or(RecycleFault::Last)?;
        self.under_way = UnderWay::In { to, answered: false };
        Ok(())
    }

    /// The IN successor, where its first packet was put and not answered yet.
    fn in_successor(&mut self) -> Option<&mut InLeg> {
        let UnderWay::In { to, answered: false } = self.under_way else { return None };
        self.in_leg(to).filter(|leg| leg.opening.is_empty())
    }

    fn answer_in(&mut self, window: u32, timeout: Option<u32>) -> Row {
        let leg = self.in_successor().ok_or(Refused::Unexpected)?;
        leg.giving.window.set_edge(window);
        leg.told_window = window;
        leg.timeout = timeout;
        let successor = leg.cookie;
        if let UnderWay::In { answered, .. } = &mut self.under_way {
            *answered = true;
        }
        self.due.push_back(Packet::InR1A5 { successor });
        Ok(())
    }

    fn out_wish(&mut self, number: u32) -> Row {
        let (next, free) = match self.under_way {
            UnderWay::Out { to, .. } => (to.checked_add(1), number == to),
            _ => (self.line.current.number.checked_add(1), true),
        };
        expect(self.is_open() && !self.waiting.contains(&Wish::Out) && free && next.is_some())?;
        self.waiting.push_back(Wish::Out);
        Ok(())
    }

    /// OUT_R1/A6.
    fn answer_out(&mut self, number: u32, told: u32) -> Row {
        let UnderWay::Out { to, answered: false, a7_put } = self.under_way else {
            return Err(Refused::Unexpected);
        };
        expect(number == self.line.current.number)?;
        let leg = self.out_leg(to).ok_or(Refused::Unexpected)?;
        let a3_put =
            !leg.opening.iter().any(|put| matches!(put, Opening::Packet(Packet::OutR1A3 { .. })));
        expect(a3_put)?;
        leg.timeout = Some(told);
        let successor = leg.cookie;
        self.under_way = UnderWay::Out { to, answered: true, a7_put };
        self.due.push_back(Packet::OutR1A7 { to: TO_SERVER, successor });
        Ok(())
    }

    /// OUT_R1/A10.
    fn finish_out(&mut self, number: u32) -> Row {
        let passed = matches!(self.under_way, UnderWay::Out { a7_put: true, .. });
        expect(passed && number == self.line.current.number && !self.line.is_finished())?;
        if let Some(leg) = self.out_leg(number) {
            leg.port.done = true;
        }
        self.line.finish();
        Ok(())
    }

    fn open(&mut self, number: u32, window: u32, timeout: u32) -> Row {
        let came = number == 1
            && self.outs.iter().any(|leg| leg.port.leg == co(1) && leg.timeout.is_some());
        expect(came && self.base.state == State::Opening)?;
        match self.in_leg(1) {
            Some(leg) => leg.tell(window, timeout),
            None => self.first_in = Some((window, timeout)),
        }
        self.base.state = State::Open;
        Ok(())
    }

    fn put_out(&mut self, number: u32, out: &mut Vec<u8>) -> bool {
        let opening = self.out_leg(number).and_then(|leg| leg.opening.pop_front());
        match opening {
            None => return false,
            Some(Opening::Packet(packet)) => packet.write(out),
            Some(Opening::Head) if number == 1 => http::write_out_request(out, http::OUT_LENGTH),
            Some(Opening::Head) => http::write_out_request(out, http::OUT_SUCCESSOR_LENGTH),
        }
        true
    }

    fn put_opening(&mut self, number: u32, out: &mut Vec<u8>) -> bool {
        let lifetime = self.config.lifetime;
        let Some(leg) = self.in_leg(number) else { return false };
        match leg.opening.pop_front() {
            None => return false,
            Some(Opening::Head) => http::write_in_request(out, lifetime),
            Some(Opening::Packet(packet)) => {
                packet.write(out);
                leg.giving.meter.put(out.len());
            }
        }
        true
    }

    fn put_ping(&mut self, number: u32, out: &mut Vec<u8>) -> bool {
        let Some(leg) = self.in_leg(number).filter(|leg| leg.port.ping) else { return false };
        Packet::Ping.write(out);
        leg.port.ping = !leg.giving.meter.lets(Keeps::Reserve, out);
        !leg.port.ping
    }

    /// Puts a packet that is due on the writing channel and that its meter lets pass.
    fn put_due(&mut self, place: usize, out: &mut Vec<u8>) -> bool {
        let writing = self.writing;
        let packet = self.due[place];
        packet.write(out);
        let Some(leg) = self.in_leg(writing) else { return false };
        if !leg.giving.meter.lets(Keeps::Nothing, out) {
            return false;
        }
        match packet {
            Packet::InR1A5 { .. } => {
                leg.port.done = true;
                self.writing += 1;
                self.under_way = UnderWay::None;
            }
            _ => {
                if let UnderWay::Out { a7_put, .. } = &mut self.under_way {
                    *a7_put = true;
                }
            }
        }
        self.due.remove(place);
        true
    }

    /// Puts an acknowledgement that is due, the lower channel's first.
    fn put_ack(&mut self, out: &mut Vec<u8>) -> bool {
        let current = (!self.line.is_finished()).then_some(self.line.current.number);
        let next = self.line.next.as_ref().map(|next| next.number);
        for number in [current, next].into_iter().flatten() {
            let cookie = self.out_cookie(number);
            let Some(channel) = self.line.channel(number).filter(|channel| !channel.ended) else {
                continue;
            };
            let Some(ack) = channel.due(cookie) else { continue };
            Packet::AckTo { to: TO_OUT_PROXY, ack }.write(out);
            let writing = self.writing;
            let leg = self.ins.iter_mut().find(|leg| leg.port.leg.number == writing);
            let put = leg.is_some_and(|leg| leg.giving.meter.lets(Keeps::Reserve, out));
            if put {
                channel.acknowledged(&ack);
            }
            return put;
        }
        false
    }

    fn put_pdu(&mut self, out: &mut Vec<u8>) -> bool {
        let writing = self.writing;
        let leg = self.ins.iter_mut().find(|leg| leg.port.leg.number == writing);
        leg.is_some_and(|leg| self.queue.put(&mut leg.giving, out))
    }

    /// Looks whether this is the clean end, whether a meter wishes for a replacement, and which one
    /// is under way.
    fn moved(&mut self) {
        if matches!(self.under_way, UnderWay::Out { to, .. } if to == self.line.current.number) {
            self.under_way = UnderWay::None;
        }
        let Some(leg) = self.ins.iter().find(|leg| leg.port.leg.number == self.writing) else {
            return;
        };
        let both_ended = leg.giving.end_put && self.line.current.ended;
        if self.queue.is_closing() && both_ended && self.under_way == UnderWay::None {
            self.waiting.clear();
            self.due.clear();
            self.end();
            return;
        }
        let has_wish =
            matches!(self.under_way, UnderWay::In { .. }) || self.waiting.contains(&Wish::In);
        if leg.giving.meter.wanted() && !has_wish && self.writing < u32::MAX {
            self.waiting.push_back(Wish::In);
        }
        if self.under_way == UnderWay::None {
            self.under_way = match self.waiting.pop_front() {
                None => UnderWay::None,
                Some(Wish::In) => UnderWay::In { to: self.writing + 1, answered: false },
                Some(Wish::Out) => UnderWay::Out {
                    to: self.line.current.number + 1,
                    answered: false,
                    a7_put: false,
                },
            };
        }
    }
}

impl InLeg {
    fn tell(&mut self, window: u32, timeout: u32) {
        self.giving.window.set_edge(window);
        self.told_window = window;
        self.timeout = Some(timeout);
    }
}

fn unfinished<'a>(ports: impl Iterator<Item = &'a Port>) -> usize {
    ports.filter(|port| !port.is_finished()).count()
}

impl Role for Client {
    fn base(&self) -> &Base {
        &self.base
    }

    fn base_mut(&mut self) -> &mut Base {
        &mut self.base
    }

    fn port(&mut self, leg: Leg) -> Option<&mut Port> {
        match leg.kind {
            LegKind::ClientOut => self.out_leg(leg.number).map(|leg| &mut leg.port),
            LegKind::ClientIn => self.in_leg(leg.number).map(|leg| &mut leg.port),
            _ => None,
        }
    }

    fn ports(&mut self) -> Box<dyn Iterator<Item = &mut Port> + '_> {
        Box::new(
            self.outs
                .iter_mut()
                .map(|leg| &mut leg.port)
                .chain(self.ins.iter_mut().map(|leg| &mut leg.port)),
        )
    }

    fn hears_up(&self, _: Leg) -> bool {
        false
    }

    fn wants(&self, leg: Leg) -> bool {
        if !self.is_live() {
            return false;
        }
        match (leg.kind, self.under_way) {
            (LegKind::ClientOut, _) if leg.number == 1 => self.newest_out == 0,
            (LegKind::ClientIn, _) if leg.number == 1 => self.newest_in == 0,
            (LegKind::ClientOut, UnderWay::Out { to, .. }) => {
                leg.number == to
                    && self.newest_out < to
                    && unfinished(self.outs.iter().map(|leg| &leg.port)) < MOST_LEGS
            }
            (LegKind::ClientIn, UnderWay::In { to, .. }) => {
                leg.number == to
                    && self.newest_in < to
                    && unfinished(self.ins.iter().map(|leg| &leg.port)) < MOST_LEGS
            }
            _ => false,
        }
    }

    fn may_up(&self, leg: Leg) -> bool {
        self.wants(leg)
    }

    fn head(&mut self, leg: Leg, head: HeadOf) -> Result<(), Cause> {
        match head {
            HeadOf::Response(response)
                if response.status != 200 || leg.kind == LegKind::ClientIn =>
            {
                Err(Cause::HttpRefused { leg, status: response.status })
            }
            _ => Ok(()),
        }
    }

    fn packet(&mut self, leg: Leg, packet: Packet, first: bool) -> Row {
        let number = leg.number;
        match packet {
            Packet::ConnA3 { timeout } => {
                expect(first && number == 1)?;
                let leg = self.out_leg(1).ok_or(Refused::Unexpected)?;
                leg.timeout = Some(timeout);
                Ok(())
            }
            Packet::ConnC { window, timeout } => self.open(number, window, timeout),
            Packet::AckTo { to: TO_CLIENT, ack } => {
                expect(self.is_open())?;
                let mut legs = self.ins.iter_mut().filter(|leg| !leg.port.is_finished());
                legs.find(|leg| leg.cookie == ack.cookie)
                    .map_or(Ok(()), |leg| leg.giving.window.acked(&ack))
            }
            Packet::InR1A3 { to: TO_CLIENT, window, timeout } => {
                self.answer_in(window, Some(timeout))
            }
            Packet::InR2A3 { to: TO_CLIENT } => {
                let writing = self.writing;
                let told = self.in_leg(writing).map(|leg| (leg.told_window, leg.timeout));
                let (window, timeout) = told.ok_or(Refused::Unexpected)?;
                self.answer_in(window, timeout)
            }
            Packet::OutR1A1 { to: TO_CLIENT } => self.out_wish(number),
            Packet::OutR1A5 { to: TO_CLIENT, timeout } => self.answer_out(number, timeout),
            Packet::OutR1A9 => self.finish_out(number),
            Packet::End => {
                let open = self.is_open();
                let leg = self
                    .out_leg(number)
                    .filter(|leg| open && !leg.ended)
                    .ok_or(Refused::Unexpected)?;
                leg.ended = true;
                self.line.end(number);
                Ok(())
            }
            _ => Err(Refused::Unexpected),
        }
    }

    fn pdu(&mut self, leg: Leg, pdu: &[u8], _: bool) -> Row {
        let a7_put = matches!(self.under_way, UnderWay::Out { a7_put: true, .. });
        let current = leg.number == self.line.current.number;
        expect(self.is_open() && (current || a7_put))?;
        let channel = self.line.channel(leg.number).filter(|channel| !channel.ended);
        channel.ok_or(Refused::Unexpected)?.admit(pdu)
    }

    fn put(&mut self, leg: Leg, out: &mut Vec<u8>) -> bool {
        if leg.kind == LegKind::ClientOut {
            return self.put_out(leg.number, out);
        }
        if self.put_opening(leg.number, out) {
            return true;
        }
        let writes = leg.number == self.writing && self.is_open();
        let put = writes
            && ((0..self.due.len()).any(|place| self.put_due(place, out))
                || self.put_ack(out)
                || self.put_pdu(out));
        put || self.put_ping(leg.number, out)
    }

    fn after(&mut self) {
        if self.is_open() {
            self.moved();
        }
    }

    fn only_marks(&self, _: Leg) -> bool {
        false
    }

    fn pass(&mut self, now: u64) -> Option<Cause> {
        let silent = |leg: &OutLeg| leg.timeout.and_then(|timeout| leg.port.silence(timeout, now));
        if let Some(cause) = self.outs.iter().find_map(silent) {
            return Some(cause);
        }
        for leg in &mut self.ins {
            leg.port.ping_after_half(leg.timeout.unwrap_or(UNTOLD_TIMEOUT), now);
        }
        None
    }
}
