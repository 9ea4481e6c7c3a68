//! The server.

use crate::client::RecycleFault;
use crate::intake::{Stage, GREETING};
use crate::leg::{Cause, Leg, LegKind};
use crate::node::{merge, Base, HeadOf, Port, Role, State, MOST_FORWARDED};
use crate::rts::{Ack, Chain, Cookie, Packet, TO_CLIENT, TO_OUT_PROXY, TO_SERVER};
use crate::window::{agree, expect, Giving, Keeps, Meter, Queue, RecvLine, Refused, Row, Take};
use std::collections::VecDeque;

const MOST_LEGS: usize = 4;
/// What the meter of OUT 1 starts at: CONN/A3, which the out proxy puts.
const FIRST_START: u32 = 28;

pub struct Server {
    base: Base,
    window: u32,
    queue: Queue,
    /// The lists of the current IN leg and the next one.
    line: RecvLine,
    ins: Vec<InLeg>,
    outs: Vec<OutLeg>,
    newest_in: u32,
    newest_out: u32,
    connection: Option<Cookie>,
    writing: u32,
    /// What waits for the writing OUT channel, each with its place in the order of becoming due.
    out_line: VecDeque<(u64, Packet)>,
    order: u64,
    replacement: Replacement,
    in_r2_due: bool,
}

struct InLeg {
    port: Port,
    /// The cookie with which the leg was opened, None before its first packet.
    opened: Option<Cookie>,
    /// The newest channel that the leg carries, and its cookie.
    channel: u32,
    cookie: Cookie,
    due: VecDeque<Packet>,
    greeted: bool,
    /// IN_R1/A2, which waits until the leg before is current, or CONN/B2, which waits for CONN/A2.
    asked: Option<(u32, u32)>,
    /// The leg's list was opened.
    listed: bool,
    a3_put: bool,
    a6_came: bool,
    ended: bool,
}

struct OutLeg {
    port: Port,
    cookie: Option<Cookie>,
    greeted: bool,
    giving: Giving,
    /// AckTo 3 for this leg's out proxy.
    acks: VecDeque<(u64, Packet)>,
    a9_put: bool,
}

#[derive(Clone, Copy, PartialEq, Eq)]
enum Replacement {
    None,
    A1Due,
    A1Put,
    A5Due(Cookie),
    A5Put(Cookie),
    A9Due,
}

fn os(number: u32) -> Leg {
    Leg::new(LegKind::OutServer, number)
}

impl Server {
    pub fn new(window: u32) -> Server {
        Server {
            base: Base::new(),
            window,
            queue: Queue::default(),
            line: RecvLine::new(1, window),
            ins: Vec::new(),
            outs: Vec::new(),
            newest_in: 0,
            newest_out: 0,
            connection: None,
            writing: 1,
            out_line: VecDeque::new(),
            order: 0,
            replacement: Replacement::None,
            in_r2_due: false,
        }
    }

    pub fn up(&mut self, leg: Leg) {
        let port = Port::new(leg, Stage::Frames, self.base.now);
        let number = leg.number;
        if leg.kind == LegKind::OutServer {
            self.newest_out = number;
            let writing = self.writing;
            self.outs.retain(|leg| !leg.port.lost || leg.port.leg.number >= writing);
            self.outs.push(OutLeg {
                port,
                cookie: None,
                greeted: false,
                giving: Giving::new(Meter::new(0, 0)),
                acks: VecDeque::new(),
                a9_put: false,
            });
            return;
        }
        // The leg before stays: the first packet here names its cookie.
        let (current, before) = (self.line.current.number, self.ins.last().map(|leg| leg.port.leg));
        self.ins.retain(|leg| {
            !leg.port.is_finished()
                || leg.port.leg.number >= current
                || Some(leg.port.leg) == before
        });
        self.newest_in = number;
        self.ins.push(InLeg {
            port,
            opened: None,
            channel: number,
            cookie: Cookie::default(),
            due: VecDeque::new(),
            greeted: false,
            asked: None,
            listed: number == 1,
            a3_put: false,
            a6_came: false,
            ended: false,
        });
    }

    fn in_leg(&mut self, number: u32) -> Option<&mut InLeg> {
        self.ins.iter_mut().find(|leg| leg.port.leg.number == number)
    }

    fn out_leg(&mut self, number: u32) -> Option<&mut OutLeg> {
        self.outs.iter_mut().find(|leg| leg.port.leg.number == number)
    }

    fn is_open(&self) -> bool {
        self.base.state == State::Open
    }

    pub fn queue(&mut self) -> &mut Queue {
        &mut self.queue
    }

    pub fn take(&mut self) -> Take {
        let current = self.line.current.number;
        let taken = self.line.take();
        self.in_moved(current);
        self.after();
        taken
    }

    pub fn close_giving(&mut self) {
        self.queue.close();
        self.after();
    }

    /// The current IN and the writing OUT channel.
    pub fn channels(&self) -> (u32, u32) {
        let current = self.line.current.number;
        let leg = self.ins.iter().find(|leg| leg.port.leg.number == current);
        (leg.map_or(current, |leg| leg.channel), self.writing)
    }

    pub fn recycle(&mut self) -> Result<(), RecycleFault> {
        if !self.is_open() {
            return Err(RecycleFault::NotOpen);
        }
        let next = self.writing.checked_add(1);
        if self.replacement != Replacement::None {
            return Err(RecycleFault::Busy(os(next.unwrap_or(u32::MAX))));
        }
        next.ok_or(RecycleFault::Last)?;
        self.wish();
        Ok(())
    }

    fn wish(&mut self) {
        self.replacement = Replacement::A1Due;
        self.due_out(Packet::OutR1A1 { to: TO_CLIENT });
    }

    fn due_out(&mut self, packet: Packet) {
        self.order += 1;
        self.out_line.push_back((self.order, packet));
    }

    /// The first packet of an OUT leg.
    fn first_out(&mut self, number: u32, packet: Packet) -> Row {
        match packet {
            Packet::ConnA2 { connection, cookie, lifetime, window } => {
                expect(number == 1 && self.base.state == State::Opening)?;
                self.agree_connection(connection)?;
                if let Some(leg) = self.out_leg(1) {
                    leg.cookie = Some(cookie);
                    leg.giving.meter = Meter::new(lifetime, FIRST_START);
                    leg.giving.window.set_edge(window);
                }
                self.open();
                Ok(())
            }
            Packet::OutR1A4 { chain, lifetime, window, timeout } => {
                let writing = self.writing;
                let follows = writing.checked_add(1) == Some(number);
                expect(follows && self.replacement == Replacement::A1Put)?;
                self.agree_connection(chain.connection)?;
                let predecessor =
                    self.out_leg(writing).and_then(|leg| leg.cookie).unwrap_or_default();
                agree(predecessor, chain.predecessor)?;
                if let Some(leg) = self.out_leg(number) {
                    leg.cookie = Some(chain.successor);
                    leg.giving.meter = Meter::new(lifetime, 0);
                    leg.giving.window.set_edge(window);
                }
                self.replacement = Replacement::A5Due(chain.successor);
                self.due_out(Packet::OutR1A5 { to: TO_CLIENT, timeout });
                Ok(())
            }
            _ => Err(Refused::Unexpected),
        }
    }

    fn agree_connection(&mut self, got: Cookie) -> Row {
        agree(*self.connection.get_or_insert(got), got)
    }

    /// Opens the connection where both CONN/A2 and CONN/B2 came.
    fn open(&mut self) {
        let out_came = self.outs.iter().any(|leg| leg.port.leg.number == 1 && leg.cookie.is_some());
        let window = self.window;
        let Some(leg) = self.in_leg(1).filter(|_| out_came) else { return };
        let Some((proxy_window, timeout)) = leg.asked.take() else { return };
        leg.due.push_back(Packet::ConnB3 { window });
        self.due_out(Packet::ConnC { window: proxy_window, timeout });
        self.base.state = State::Open;
    }

    /// The first packet of an IN leg.
    fn first_in(&mut self, number: u32, packet: Packet) -> Row {
        match packet {
            Packet::ConnB2 { connection, cookie, window, timeout, .. } => {
                expect(number == 1 && self.base.state == State::Opening)?;
                self.agree_connection(connection)?;
                self.asked(number, cookie, window, timeout);
                self.open();
                Ok(())
            }
            Packet::InR1A2 { chain, window, timeout } => {
                self.in_successor(number, chain, window, timeout)
            }
            _ => Err(Refused::Unexpected),
        }
    }

    fn asked(&mut self, number: u32, cookie: Cookie, window: u32, timeout: u32) {
        if let Some(leg) = self.in_leg(number) {
            leg.opened = Some(cookie);
            leg.cookie = cookie;
            leg.asked = Some((window, timeout));
        }
    }

    /// IN_R1/A2.
    fn in_successor(&mut self, number: u32, chain: Chain, window: u32, timeout: u32) -> Row {
        expect(self.is_open())?;
        let before = self.ins.iter().rev().find(|leg| leg.port.leg.number < number);
        let before = before.filter(|leg| leg.opened.is_some()).ok_or(Refused::Unexpected)?;
        let predecessor = before.cookie;
        self.agree_connection(chain.connection)?;
        agree(predecessor, chain.predecessor)?;
        self.asked(number, chain.successor, window, timeout);
        self.list_next();
        Ok(())
    }

    /// Opens the list of the leg behind the current one, where its IN_R1/A2 waits for that.
    fn list_next(&mut self) {
        if self.line.next.is_some() {
            return;
        }
        let current = self.line.current.number;
        let Some(leg) = self.ins.iter_mut().find(|leg| leg.port.leg.number > current) else {
            return;
        };
        let Some((window, timeout)) = leg.asked.take() else { return };
        leg.listed = true;
        let (number, ended) = (leg.port.leg.number, leg.ended);
        self.line.open_next(number, true);
        if ended {
            self.line.end(number);
        }
        self.due_out(Packet::InR1A3 { to: TO_CLIENT, window, timeout });
    }

    /// Does what is due where the current IN leg is another one than before.
    fn in_moved(&mut self, before: u32) {
        let (current, window) = (self.line.current.number, self.window);
        if current == before {
            return;
        }
        if let Some(leg) = self.in_leg(current) {
            leg.due.push_back(Packet::InR1B2 { window });
        }
        self.list_next();
    }

    /// A packet behind the first one of an IN leg.
    fn further_in(&mut self, number: u32, packet: Packet) -> Row {
        let (open, r2_due, newest) = (self.is_open(), self.in_r2_due, self.newest_in);
        match packet {
            Packet::AckTo { to: TO_CLIENT, .. } => return self.forward_down(packet),
            Packet::AckTo { to: TO_OUT_PROXY, ack } => return self.forward_ack(ack),
            Packet::OutR1A7 { to: TO_SERVER, successor } => {
                let Replacement::A5Put(expected) = self.replacement else {
                    return Err(Refused::Unexpected);
                };
                agree(expected, successor)?;
                self.replacement = Replacement::A9Due;
                self.due_out(Packet::OutR1A9);
                return Ok(());
            }
            Packet::InR1A5 { successor } => return self.finish_in(number, successor),
            _ => {}
        }
        let leg = self.in_leg(number).filter(|leg| !leg.a6_came).ok_or(Refused::Unexpected)?;
        match packet {
            Packet::InR2A2 { successor } => {
                expect(leg.listed && open && !r2_due)?;
                leg.channel = newest.checked_add(1).ok_or(Refused::Unexpected)?;
                leg.cookie = successor;
                self.newest_in = newest + 1;
                self.in_r2_due = true;
                self.due_out(Packet::InR2A3 { to: TO_CLIENT });
                Ok(())
            }
            Packet::End => {
                expect(!leg.ended)?;
                leg.ended = true;
                if leg.listed {
                    self.line.end(number);
                }
                Ok(())
            }
            _ => Err(Refused::Unexpected),
        }
    }

    /// IN_R1/A6.
    fn finish_in(&mut self, number: u32, successor: Cookie) -> Row {
        expect(number == self.line.current.number)?;
        let next = self.line.next.as_ref().map(|next| next.number).ok_or(Refused::Unexpected)?;
        let next = self.in_leg(next).filter(|next| next.a3_put).and_then(|next| next.opened);
        let leg = self.in_leg(number).filter(|leg| !leg.a6_came).ok_or(Refused::Unexpected)?;
        agree(next.ok_or(Refused::Unexpected)?, successor)?;
        leg.a6_came = true;
        leg.due.push_back(Packet::InR1B1);
        self.line.finish();
        self.in_moved(number);
        Ok(())
    }

    fn forwarded_down(&self) -> usize {
        self.out_line.iter().filter(|(_, packet)| matches!(packet, Packet::AckTo { .. })).count()
    }

    /// AckTo 0 goes on the writing OUT channel.
    fn forward_down(&mut self, packet: Packet) -> Row {
        let Packet::AckTo { to, ack } = packet else { return Err(Refused::Unexpected) };
        if self.out_line.iter_mut().any(|(_, waits)| merge(waits, to, &ack)) {
            return Ok(());
        }
        let writing = self.writing;
        let own = self.out_leg(writing).map_or(0, |leg| leg.acks.len());
        if own + self.forwarded_down() >= MOST_FORWARDED {
            return Err(Refused::Full(os(writing)));
        }
        self.due_out(packet);
        Ok(())
    }

    /// AckTo 3 goes on the unfinished OUT leg of its cookie.
    fn forward_ack(&mut self, ack: Ack) -> Row {
        let (writing, of_line) = (self.writing, self.forwarded_down());
        let order = self.order + 1;
        let mut legs = self.outs.iter_mut().filter(|leg| !leg.port.is_finished());
        let Some(leg) = legs.find(|leg| leg.cookie == Some(ack.cookie)) else { return Ok(()) };
        if leg.acks.iter_mut().any(|(_, waits)| merge(waits, TO_OUT_PROXY, &ack)) {
            return Ok(());
        }
        let number = leg.port.leg.number;
        let pending = leg.acks.len() + if number == writing { of_line } else { 0 };
        if pending >= MOST_FORWARDED {
            return Err(Refused::Full(os(number)));
        }
        leg.acks.push_back((order, Packet::AckTo { to: TO_OUT_PROXY, ack }));
        self.order = order;
        Ok(())
    }

    fn put_in(&mut self, number: u32, out: &mut Vec<u8>) -> bool {
        let Some(leg) = self.ins.iter_mut().find(|leg| leg.port.leg.number == number) else {
            return false;
        };
        if !leg.greeted {
            leg.greeted = true;
            out.extend_from_slice(GREETING);
            return true;
        }
        let channel = self.line.channel(number);
        if let Some(packet) = leg.due.pop_front() {
            packet.write(out);
            match (packet, channel) {
                (Packet::InR1B1, _) => leg.port.done = true,
                (Packet::InR1B2 { .. }, Some(channel)) => channel.tell(),
                _ => {}
            }
            return true;
        }
        let (Some(channel), Some(cookie)) = (channel, leg.opened) else { return false };
        if leg.a6_came || leg.ended {
            return false;
        }
        let Some(ack) = channel.due(cookie) else { return false };
        channel.acknowledged(&ack);
        Packet::Ack(ack).write(out);
        true
    }

    fn put_out(&mut self, number: u32, out: &mut Vec<u8>) -> bool {
        let writes = number == self.writing;
        let Some(leg) = self.out_leg(number) else { return false };
        if !leg.greeted {
            leg.greeted = true;
            out.extend_from_slice(GREETING);
            return true;
        }
        if leg.cookie.is_none() {
            return false;
        }
        let own = leg.acks.front().map_or(u64::MAX, |&(order, _)| order);
        if writes {
            for place in 0..self.out_line.len() {
                if self.out_line[place].0 > own {
                    break;
                }
                if self.put_line(place, out) {
                    return true;
                }
            }
        }
        if let Some((_, packet)) = self.out_leg(number).and_then(|leg| leg.acks.pop_front()) {
            packet.write(out);
            return true;
        }
        if !writes {
            return false;
        }
        (0..self.out_line.len()).any(|place| self.put_line(place, out))
            || (self.is_open() && self.put_pdu(out))
    }

    /// Puts a packet of the OUT line, where the writing channel's meter lets it pass.
    fn put_line(&mut self, place: usize, out: &mut Vec<u8>) -> bool {
        let writing = self.writing;
        let (_, packet) = self.out_line[place];
        packet.write(out);
        let keeps = match packet {
            Packet::AckTo { .. } | Packet::ConnC { .. } => Keeps::Reserve,
            _ => Keeps::Nothing,
        };
        let Some(leg) = self.out_leg(writing) else { return false };
        if !leg.giving.meter.lets(keeps, out) {
            return false;
        }
        leg.a9_put |= matches!(packet, Packet::OutR1A9);
        self.out_line.remove(place);
        match packet {
            Packet::InR1A3 { .. } => {
                let next = self.line.next.as_ref().map_or(0, |next| next.number);
                if let Some(leg) = self.in_leg(next) {
                    leg.a3_put = true;
                }
            }
            Packet::InR2A3 { .. } => self.in_r2_due = false,
            Packet::OutR1A1 { .. } => self.replacement = Replacement::A1Put,
            Packet::OutR1A5 { .. } => {
                if let Replacement::A5Due(successor) = self.replacement {
                    self.replacement = Replacement::A5Put(successor);
                }
            }
            Packet::OutR1A9 => {
                self.writing += 1;
                self.replacement = Replacement::None;
            }
            _ => {}
        }
        true
    }

    fn put_pdu(&mut self, out: &mut Vec<u8>) -> bool {
        let writing = self.writing;
        let leg = self.outs.iter_mut().find(|leg| leg.port.leg.number == writing);
        leg.is_some_and(|leg| self.queue.put(&mut leg.giving, out))
    }

    fn end_was_put(&self) -> bool {
        self.outs.iter().any(|leg| leg.port.leg.number == self.writing && leg.giving.end_put)
    }
}

impl Role for Server {
    fn base(&self) -> &Base {
        &self.base
    }

    fn base_mut(&mut self) -> &mut Base {
        &mut self.base
    }

    fn port(&mut self, leg: Leg) -> Option<&mut Port> {
        match leg.kind {
            LegKind::OutServer => self.out_leg(leg.number).map(|leg| &mut leg.port),
            LegKind::InServer => self.in_leg(leg.number).map(|leg| &mut leg.port),
            _ => None,
        }
    }

    fn ports(&mut self) -> Box<dyn Iterator<Item = &mut Port> + '_> {
        Box::new(
            self.outs
                .iter_mut()
                .map(|leg| &mut leg.port)
                .chain(self.ins.iter_mut().map(|leg| &mut leg.port)),
        )
    }

    fn hears_up(&self, _: Leg) -> bool {
        true
    }

    fn wants(&self, _: Leg) -> bool {
        false
    }

    fn may_up(&self, leg: Leg) -> bool {
        let (newest, unfinished) = match leg.kind {
            LegKind::OutServer => {
                (self.newest_out, self.outs.iter().filter(|leg| !leg.port.is_finished()).count())
            }
            _ => (self.newest_in, self.ins.iter().filter(|leg| !leg.port.is_finished()).count()),
        };
        self.is_live() && newest.checked_add(1) == Some(leg.number) && unfinished < MOST_LEGS
    }

    fn head(&mut self, _: Leg, _: HeadOf) -> Result<(), Cause> {
        Ok(())
    }

    fn packet(&mut self, leg: Leg, packet: Packet, first: bool) -> Row {
        match (leg.kind, first) {
            (LegKind::OutServer, true) => self.first_out(leg.number, packet),
            (LegKind::OutServer, false) => match packet {
                Packet::Ack(ack) => {
                    let own = self.out_leg(leg.number).ok_or(Refused::Unexpected)?;
                    agree(own.cookie.unwrap_or_default(), ack.cookie)?;
                    own.giving.window.acked(&ack)
                }
                Packet::PingTraffic => Ok(()),
                _ => Err(Refused::Unexpected),
            },
            (_, true) => self.first_in(leg.number, packet),
            (_, false) => self.further_in(leg.number, packet),
        }
    }

    fn pdu(&mut self, leg: Leg, pdu: &[u8], _: bool) -> Row {
        let own = self.ins.iter().find(|own| own.port.leg == leg);
        expect(
            self.is_open()
                && own.is_some_and(|own| own.opened.is_some() && !own.a6_came && !own.ended),
        )?;
        self.line.channel(leg.number).ok_or(Refused::Unexpected)?.admit(pdu)
    }

    fn put(&mut self, leg: Leg, out: &mut Vec<u8>) -> bool {
        match leg.kind {
            LegKind::OutServer => self.put_out(leg.number, out),
            _ => self.put_in(leg.number, out),
        }
    }

    fn after(&mut self) {
        if !self.is_open() {
            return;
        }
        if self.end_was_put() && self.ins.iter().all(|leg| leg.port.is_finished()) {
            self.end();
            return;
        }
        let mut legs = self.outs.iter();
        let wanted =
            legs.any(|leg| leg.port.leg.number == self.writing && leg.giving.meter.wanted());
        if wanted && self.replacement == Replacement::None && self.writing < u32::MAX {
            self.wish();
        }
    }

    fn only_marks(&self, leg: Leg) -> bool {
        if leg.kind == LegKind::OutServer {
            return self.outs.iter().any(|own| own.port.leg == leg && own.a9_put);
        }
        let own = self.ins.iter().find(|own| own.port.leg == leg);
        own.is_some_and(|own| own.a6_came || (own.ended && self.end_was_put()))
    }

    fn pass(&mut self, _: u64) -> Option<Cause> {
        None
    }
}
