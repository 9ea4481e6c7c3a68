//! The world of a roles recording: one virtual connection's nodes and legs.

use crate::client::{self, Client, RecycleFault};
use crate::direct::front_of;
use crate::hex;
use crate::inproxy::{self, InProxy};
use crate::leg::{Cause, Leg, LegKind, Who};
use crate::node::{Role, State};
use crate::outproxy::{self, OutProxy};
use crate::pdu;
use crate::record::{Dir, Line, Recording, Side};
use crate::report::{GiveFault, Report};
use crate::rts::Cookie;
use crate::server::Server;
use crate::window::Take;
use std::collections::{BTreeMap, VecDeque};

/// What one draw and one move of a settling round carry at most.
const PIECE: usize = 65_536;
const CLIENT_ADDRESS: [u8; 4] = [127, 0, 0, 1];

/// The numbers of the `set` lines.
pub struct Config {
    cwin: u32,
    iwin: u32,
    owin: u32,
    swin: u32,
    ilife: u32,
    olife: u32,
    itime: u32,
    otime: u32,
    keep: u32,
    same: bool,
}

impl Default for Config {
    fn default() -> Config {
        Config {
            cwin: 65_536,
            iwin: 65_536,
            owin: 65_536,
            swin: 65_536,
            ilife: 1_073_741_824,
            olife: 1_073_741_824,
            itime: 120_000,
            otime: 120_000,
            keep: 300_000,
            same: false,
        }
    }
}

impl Config {
    fn set(&mut self, key: &[u8], value: u32) {
        match key {
            b"cwin" => self.cwin = value,
            b"iwin" => self.iwin = value,
            b"owin" => self.owin = value,
            b"swin" => self.swin = value,
            b"ilife" => self.ilife = value,
            b"olife" => self.olife = value,
            b"itime" => self.itime = value,
            b"otime" => self.otime = value,
            b"keep" => self.keep = value,
            _ => self.same = value == 1,
        }
    }
}

/// A leg that is up, with its bytes in flight.
struct Link {
    leg: Leg,
    near: Who,
    far: Who,
    up: VecDeque<u8>,
    down: VecDeque<u8>,
}

impl Link {
    fn flight(&mut self, dir: Dir) -> &mut VecDeque<u8> {
        match dir {
            Dir::Up => &mut self.up,
            Dir::Down => &mut self.down,
        }
    }

    /// The node that sends in a direction, and the one that receives.
    fn ends(&self, dir: Dir) -> (Who, Who) {
        match dir {
            Dir::Up => (self.near, self.far),
            Dir::Down => (self.far, self.near),
        }
    }
}

/// The nodes; a proxy that is no longer of use is dropped.
struct Nodes {
    client: Client,
    server: Server,
    ins: BTreeMap<u32, Box<InProxy>>,
    outs: BTreeMap<u32, Box<OutProxy>>,
}

impl Nodes {
    fn in_proxy(&mut self, number: u32) -> Option<&mut InProxy> {
        self.ins.get_mut(&number).map(Box::as_mut)
    }

    fn out_proxy(&mut self, number: u32) -> Option<&mut OutProxy> {
        self.outs.get_mut(&number).map(Box::as_mut)
    }

    /// The proxy of a kind with the next number.
    fn next_in(&self, after: u32) -> Option<u32> {
        self.ins.range(after + 1..).next().map(|(&number, _)| number)
    }

    fn next_out(&self, after: u32) -> Option<u32> {
        self.outs.range(after + 1..).next().map(|(&number, _)| number)
    }

    fn get(&mut self, who: Who) -> Option<&mut dyn Role> {
        match who {
            Who::Client => Some(&mut self.client),
            Who::Server => Some(&mut self.server),
            Who::In(number) => self.in_proxy(number).map(|node| node as &mut dyn Role),
            Who::Out(number) => self.out_proxy(number).map(|node| node as &mut dyn Role),
        }
    }

    fn wants(&mut self, who: Who, leg: Leg) -> bool {
        self.get(who).is_some_and(|node| node.wants(leg))
    }

    fn may_up(&mut self, who: Who, leg: Leg) -> bool {
        self.get(who).is_some_and(|node| node.may_up(leg))
    }

    fn finished(&mut self, who: Who, leg: Leg) -> bool {
        self.get(who).is_none_or(|node| node.finished(leg))
    }
}

/// One direction's numbers of PDUs.
#[derive(Default)]
struct Count {
    given: u64,
    taken: u64,
}

pub struct World {
    config: Config,
    nodes: Nodes,
    /// The legs that are up, in order.
    links: Vec<Link>,
    /// The in proxy that reads each ci leg, from the first on.
    readers: Vec<u32>,
    now: u64,
    next_cookie: u64,
    /// Per end whether a take was answered with Ended.
    told_ended: [bool; 2],
    up: Count,
    down: Count,
    /// The nodes whose close is not reported yet, each with its cause.
    closed: Vec<(Who, Cause)>,
}

impl World {
    pub fn new(config: Config) -> World {
        let client = Client::new(client::Config {
            connection: Cookie::number(1),
            group: Cookie::number(2),
            window: config.cwin,
            lifetime: config.ilife,
            keepalive: config.keep,
        });
        let server = Server::new(config.swin);
        World {
            config,
            nodes: Nodes { client, server, ins: BTreeMap::new(), outs: BTreeMap::new() },
            links: Vec::new(),
            readers: Vec::new(),
            now: 0,
            next_cookie: 3,
            told_ended: [false; 2],
            up: Count::default(),
            down: Count::default(),
            closed: Vec::new(),
        }
    }

    /// Acts on a node, and remembers it where this closed it.
    fn act(&mut self, who: Who, step: impl FnOnce(&mut dyn Role)) {
        let Some(node) = self.nodes.get(who).filter(|node| node.is_live()) else { return };
        step(node);
        if let State::Closed(cause) = node.base().state {
            self.closed.push((who, cause));
        }
    }

    /// The node at each end of a leg: towards the client and towards the server.
    fn ends_of(&self, leg: Leg) -> (Who, Who) {
        match leg.kind {
            LegKind::ClientOut => (Who::Client, Who::Out(leg.number)),
            LegKind::OutServer => (Who::Out(leg.number), Who::Server),
            LegKind::ClientIn => {
                let reader = self.readers.get(leg.number as usize - 1).copied();
                (Who::Client, Who::In(reader.unwrap_or(leg.number)))
            }
            LegKind::InServer => (Who::In(leg.number), Who::Server),
        }
    }

    fn place(&self, leg: Leg) -> Result<usize, usize> {
        self.links.binary_search_by_key(&leg, |link| link.leg)
    }

    pub fn give(&mut self, side: Side, pdu: &[u8], report: &mut Report) {
        let state = self.state(side);
        let (queue, count) = match side {
            Side::Client => (self.nodes.client.queue(), &mut self.up),
            Side::Server => (self.nodes.server.queue(), &mut self.down),
        };
        let answer = if let State::Closed(cause) = state {
            Err(GiveFault::Closed(cause))
        } else if queue.is_closing() {
            Err(GiveFault::Closing)
        } else if let Err(fault) = pdu::check(pdu) {
            Err(GiveFault::Bad(fault))
        } else if !queue.push(pdu) {
            Err(GiveFault::Full { held: queue.held(), len: pdu.len() })
        } else {
            count.given += 1;
            Ok(pdu.len())
        };
        report.given(side, answer);
    }

    fn state(&self, side: Side) -> State {
        match side {
            Side::Client => self.nodes.client.base().state,
            Side::Server => self.nodes.server.base().state,
        }
    }

    /// Takes at an end. In settling only a PDU and the first Ended are reported; answers whether
    /// one was.
    fn take(&mut self, side: Side, settling: bool, report: &mut Report) -> bool {
        let letter = side.letter();
        if let State::Closed(cause) = self.state(side) {
            if !settling {
                report.line(format_args!("take {letter} closed {cause}"));
            }
            return false;
        }
        let (taken, count) = match side {
            Side::Client => (self.nodes.client.take(), &mut self.down),
            Side::Server => (self.nodes.server.take(), &mut self.up),
        };
        match taken {
            Take::Pdu(pdu) => {
                count.taken += 1;
                report.taken(side, &pdu);
                true
            }
            Take::Empty => {
                if !settling {
                    report.line(format_args!("take {letter} empty"));
                }
                false
            }
            Take::Ended => {
                let first = !std::mem::replace(&mut self.told_ended[side as usize], true);
                if first || !settling {
                    report.line(format_args!("take {letter} ended"));
                }
                first
            }
        }
    }

    pub fn close(&mut self, side: Side, report: &mut Report) {
        match side {
            Side::Client => self.nodes.client.close_giving(),
            Side::Server => self.nodes.server.close_giving(),
        }
        report.line(format_args!("close {} ok", side.letter()));
    }

    fn send(&mut self, leg: Leg, dir: Dir, count: usize) -> Option<usize> {
        let place = self.place(leg).ok()?;
        let link = &mut self.links[place];
        let (sender, _) = link.ends(dir);
        let node = self.nodes.get(sender);
        Some(node.map_or(0, |node| node.draw(leg, count, link.flight(dir))))
    }

    /// Feeds up to `most` bytes, and answers how many. In settling none are not reported.
    fn feed(
        &mut self,
        place: usize,
        dir: Dir,
        most: usize,
        settling: bool,
        report: &mut Report,
    ) -> usize {
        let link = &mut self.links[place];
        let leg = link.leg;
        let (_, receiver) = link.ends(dir);
        let mut flight = std::mem::take(link.flight(dir));
        let (front, back) = front_of(&flight, most);
        let count = front.len() + back.len();
        if count > 0 || !settling {
            report.moved(Some(leg), dir, Some((front, back)));
        }
        if count > 0 {
            self.act(receiver, |node| {
                node.bytes(leg, front);
                node.bytes(leg, back);
            });
        }
        flight.drain(..count);
        *self.links[place].flight(dir) = flight;
        count
    }

    fn moves(&mut self, leg: Leg, dir: Dir, count: usize, report: &mut Report) {
        match self.place(leg) {
            Ok(place) => drop(self.feed(place, dir, count, false, report)),
            Err(_) => report.moved(Some(leg), dir, None),
        }
    }

    /// Opens a leg where one side wants it and the other may have it up.
    fn open(&mut self, leg: Leg, same: bool) -> bool {
        let Err(place) = self.place(leg) else { return false };
        let (near, mut far) = self.ends_of(leg);
        if same {
            let before = (leg.number as usize).checked_sub(2);
            let Some(&reader) = before.and_then(|before| self.readers.get(before)) else {
                return false;
            };
            far = Who::In(reader);
        }
        if !self.nodes.wants(near, leg) {
            return false;
        }
        let makes = near == Who::Client && !same;
        if !makes && !self.nodes.may_up(far, leg) {
            return false;
        }
        if makes {
            self.make_proxy(far);
        }
        if leg.kind == LegKind::ClientIn {
            let Who::In(reader) = far else { return false };
            self.readers.push(reader);
        }
        self.tell_up(near, leg);
        self.tell_up(far, leg);
        self.links
            .insert(place, Link { leg, near, far, up: VecDeque::new(), down: VecDeque::new() });
        true
    }

    fn make_proxy(&mut self, who: Who) {
        let Config { iwin, owin, olife, itime, otime, .. } = self.config;
        match who {
            Who::In(number) => {
                let config = inproxy::Config {
                    number,
                    window: iwin,
                    timeout: itime,
                    address: CLIENT_ADDRESS,
                };
                self.nodes.ins.insert(number, Box::new(InProxy::new(config, self.now)));
            }
            Who::Out(number) => {
                let config =
                    outproxy::Config { number, window: owin, lifetime: olife, timeout: otime };
                self.nodes.outs.insert(number, Box::new(OutProxy::new(config, self.now)));
            }
            _ => {}
        }
    }

    fn tell_up(&mut self, who: Who, leg: Leg) {
        match who {
            Who::Client => {
                self.nodes.client.up(leg, Cookie::number(self.next_cookie));
                self.next_cookie += 1;
            }
            Who::Server => self.nodes.server.up(leg),
            Who::In(number) => {
                if let Some(node) = self.nodes.in_proxy(number) {
                    node.up(leg);
                }
            }
            Who::Out(number) => {
                if let Some(node) = self.nodes.out_proxy(number) {
                    node.up(leg);
                }
            }
        }
    }

    /// Takes a leg down; proxies that ended or closed and have no leg any more are dropped.
    fn take_down(&mut self, place: usize) {
        let link = self.links.remove(place);
        for who in [link.near, link.far] {
            let used = self.links.iter().any(|other| other.near == who || other.far == who);
            if used || self.nodes.get(who).is_none_or(|node| node.is_live()) {
                continue;
            }
            match who {
                Who::In(number) => drop(self.nodes.ins.remove(&number)),
                Who::Out(number) => drop(self.nodes.outs.remove(&number)),
                _ => {}
            }
        }
    }

    fn break_leg(&mut self, leg: Leg) -> bool {
        let (near, far) = self.ends_of(leg);
        if let Ok(place) = self.place(leg) {
            self.act_lost(near, |node| node.broken(leg));
            self.act_lost(far, |node| node.broken(leg));
            self.take_down(place);
            return true;
        }
        let wanted = self.nodes.wants(near, leg);
        if wanted {
            self.act(near, |node| node.broken(leg));
        }
        wanted
    }

    /// As `act`, also where the node isn't live: it draws no more on a leg that is lost.
    fn act_lost(&mut self, who: Who, step: impl FnOnce(&mut dyn Role)) {
        match self.nodes.get(who) {
            Some(node) if !node.is_live() => step(node),
            _ => self.act(who, step),
        }
    }

    fn end_leg(&mut self, leg: Leg, dir: Dir) -> bool {
        let Ok(place) = self.place(leg) else { return false };
        let link = &mut self.links[place];
        if !link.flight(dir).is_empty() {
            return false;
        }
        let (sender, receiver) = link.ends(dir);
        self.act_lost(sender, |node| node.broken(leg));
        self.act_lost(receiver, |node| node.ended(leg));
        self.take_down(place);
        true
    }

    fn tick(&mut self, now: u64) -> bool {
        if now < self.now {
            return false;
        }
        self.now = now;
        self.act(Who::Client, |node| node.tick(now));
        self.act(Who::Server, |node| node.tick(now));
        let mut last = 0;
        while let Some(number) = self.nodes.next_in(last) {
            self.act(Who::In(number), |node| node.tick(now));
            last = number;
        }
        last = 0;
        while let Some(number) = self.nodes.next_out(last) {
            self.act(Who::Out(number), |node| node.tick(now));
            last = number;
        }
        true
    }

    pub fn settle(&mut self, most: u32, report: &mut Report) {
        for rounds in 0..most {
            if report.has_failed() {
                return;
            }
            if !self.round(report) {
                report.settled("quiet", rounds);
                return;
            }
        }
        report.settled("spent", most);
    }

    /// One round of settling; answers whether anything was reported.
    fn round(&mut self, report: &mut Report) -> bool {
        let mut any = self.open_all(report);
        for place in 0..self.links.len() {
            for dir in [Dir::Up, Dir::Down] {
                let link = &mut self.links[place];
                let (leg, (sender, _)) = (link.leg, link.ends(dir));
                if let Some(node) = self.nodes.get(sender) {
                    node.draw(leg, PIECE, link.flight(dir));
                }
                any |= self.feed(place, dir, PIECE, true, report) > 0;
            }
        }
        any |= self.take(Side::Client, true, report);
        any |= self.take(Side::Server, true, report);
        any |= self.end_all(report);
        any
    }

    fn open_all(&mut self, report: &mut Report) -> bool {
        let (out, inbound) = self.nodes.client.wanted();
        let mut any = false;
        if let Some(leg) = out {
            any |= self.open_reported(leg, report);
        }
        let mut last = 0;
        while let Some(number) = self.nodes.next_out(last) {
            let leg = Leg::new(LegKind::OutServer, number);
            any |= self.open_wanted(Who::Out(number), leg, report);
            last = number;
        }
        if let Some(leg) = inbound {
            any |= self.open_reported(leg, report);
        }
        last = 0;
        while let Some(number) = self.nodes.next_in(last) {
            let leg = Leg::new(LegKind::InServer, number);
            any |= self.open_wanted(Who::In(number), leg, report);
            last = number;
        }
        any
    }

    fn open_wanted(&mut self, who: Who, leg: Leg, report: &mut Report) -> bool {
        self.nodes.wants(who, leg) && self.open_reported(leg, report)
    }

    fn open_reported(&mut self, leg: Leg, report: &mut Report) -> bool {
        if self.config.same && leg.kind == LegKind::ClientIn && self.open(leg, true) {
            report.line(format_args!("open {leg} same ok"));
            return true;
        }
        let opened = self.open(leg, false);
        if opened {
            report.line(format_args!("open {leg} ok"));
        }
        opened
    }

    fn end_all(&mut self, report: &mut Report) -> bool {
        let mut any = false;
        let mut place = 0;
        while place < self.links.len() {
            let leg = self.links[place].leg;
            let dir = [Dir::Up, Dir::Down].into_iter().find(|&dir| {
                let link = &mut self.links[place];
                link.flight(dir).is_empty() && self.nodes.finished(link.ends(dir).0, leg)
            });
            let Some(dir) = dir else {
                place += 1;
                continue;
            };
            self.end_leg(leg, dir);
            report.line(format_args!("end {leg} {} ok", dir.letter()));
            any = true;
        }
        any
    }

    fn recycle(&mut self, word: &str, answer: Result<(), RecycleFault>, report: &mut Report) {
        match answer {
            Ok(()) => report.line(format_args!("recycle {word} ok")),
            Err(RecycleFault::Busy(leg)) => report.line(format_args!("recycle {word} busy {leg}")),
            Err(RecycleFault::NotOpen) => report.line(format_args!("recycle {word} notopen")),
            Err(RecycleFault::Last) => report.line(format_args!("recycle {word} last")),
        }
    }

    fn step(&mut self, line: &Line, bytes: &mut Vec<u8>, report: &mut Report) {
        let word = |ok| if ok { "ok" } else { "no" };
        match *line {
            Line::Set { .. } => {}
            Line::Give { side, hex } => {
                hex::read(hex, bytes);
                self.give(side, bytes, report);
            }
            Line::Take { side } => drop(self.take(side, false, report)),
            Line::Close { side } => self.close(side, report),
            Line::Send { leg: Some(leg), dir, count } => {
                let sent = self.send(leg, dir, count);
                report.sent(Some(leg), dir, sent);
            }
            Line::Move { leg: Some(leg), dir, count } => self.moves(leg, dir, count, report),
            Line::Send { leg: None, .. } | Line::Move { leg: None, .. } => {}
            Line::Open { leg, same } => {
                let word = word(self.open(leg, same));
                report.line(format_args!("open {leg}{} {word}", if same { " same" } else { "" }));
            }
            Line::Break { leg } => {
                let word = word(self.break_leg(leg));
                report.line(format_args!("break {leg} {word}"));
            }
            Line::End { leg, dir } => {
                let word = word(self.end_leg(leg, dir));
                report.line(format_args!("end {leg} {} {word}", dir.letter()));
            }
            Line::Tick { now } => {
                let word = word(self.tick(now));
                report.line(format_args!("tick {now} {word}"));
            }
            Line::RecycleIn => {
                let answer = self.nodes.client.recycle();
                self.recycle("in", answer, report);
            }
            Line::RecycleOut => {
                let answer = self.nodes.server.recycle();
                self.recycle("out", answer, report);
            }
            Line::Settle { rounds } => self.settle(rounds, report),
        }
        self.report_closed(report);
    }

    /// The nodes that a line closed, in the order of `tick`.
    pub fn report_closed(&mut self, report: &mut Report) {
        if self.closed.is_empty() {
            return;
        }
        let mut closed = std::mem::take(&mut self.closed);
        closed.sort_by_key(|&(who, _)| who);
        for (who, cause) in closed {
            report.closed(who, cause);
        }
    }

    pub fn last(&self, report: &mut Report) {
        report.line(format_args!("up given {} taken {}", self.up.given, self.up.taken));
        report.line(format_args!("down given {} taken {}", self.down.given, self.down.taken));
        self.last_state(
            "client",
            self.nodes.client.base().state,
            self.nodes.client.channels(),
            report,
        );
        self.last_state(
            "server",
            self.nodes.server.base().state,
            self.nodes.server.channels(),
            report,
        );
    }

    fn last_state(
        &self,
        end: &str,
        state: State,
        (inbound, outbound): (u32, u32),
        report: &mut Report,
    ) {
        let word = match state {
            State::Opening => "opening",
            State::Open => "open",
            State::Ended => "ended",
            State::Closed(cause) => return report.line(format_args!("{end} closed {cause}")),
        };
        report.line(format_args!("{end} {word} in {inbound} out {outbound}"));
    }
}

pub fn run(recording: &Recording, report: &mut Report) {
    let mut config = Config::default();
    for line in recording.lines() {
        let Line::Set { key, value } = line else { break };
        config.set(key, value);
    }
    let mut world = World::new(config);
    let mut bytes = Vec::new();
    for line in recording.lines() {
        world.step(&line, &mut bytes, report);
        if report.has_failed() {
            return;
        }
    }
    world.last(report);
}
