//! RTS packets (MS-RPCH 2.2.3 and 2.2.4): their bytes, and the named packets of the four roles.

use crate::hex;
use crate::leg::LegKind;
use std::fmt;

const COOKIE_TEXT_LEN: usize = 36;

#[derive(Clone, Copy, PartialEq, Eq, Debug, Default)]
pub struct Cookie(pub [u8; 16]);

impl Cookie {
    /// The cookie that is this number, most significant byte first.
    pub fn number(n: u64) -> Cookie {
        Cookie(u128::from(n).to_be_bytes())
    }

    /// Hex in groups of 4, 2, 2, 2 and 6 bytes.
    pub fn text(&self) -> [u8; COOKIE_TEXT_LEN] {
        let pairs = self.0.map(hex::pair);
        let digits = pairs.as_flattened();
        let mut text = [b'-'; COOKIE_TEXT_LEN];
        text[..8].copy_from_slice(&digits[..8]);
        text[9..13].copy_from_slice(&digits[8..12]);
        text[14..18].copy_from_slice(&digits[12..16]);
        text[19..23].copy_from_slice(&digits[16..20]);
        text[24..].copy_from_slice(&digits[20..]);
        text
    }
}

impl fmt::Display for Cookie {
    fn fmt(&self, f: &mut fmt::Formatter) -> fmt::Result {
        f.write_str(&String::from_utf8_lossy(&self.text()))
    }
}

const PING: u16 = 0x01;
const OTHER_CMD: u16 = 0x02;
const RECYCLE: u16 = 0x04;
const IN_CHANNEL: u16 = 0x08;
const OUT_CHANNEL: u16 = 0x10;
const EOF: u16 = 0x20;
const ECHO: u16 = 0x40;
const ALL_FLAGS: u16 = 0x7f;

const HEADER_LEN: usize = 20;
/// The first eight bytes of every RTS packet.
const FRONT: [u8; 8] = [5, 0, 20, 3, 0x10, 0, 0, 0];
const GREATEST_PADDING: u32 = 65_535;

#[derive(Clone, Copy, PartialEq, Eq, Debug)]
pub struct RtsFault {
    pub kind: RtsKind,
    pub place: usize,
}

impl fmt::Display for RtsFault {
    fn fmt(&self, f: &mut fmt::Formatter) -> fmt::Result {
        write!(f, "{:?} {}", self.kind, self.place)
    }
}

#[derive(Clone, Copy, PartialEq, Eq, Debug)]
pub enum RtsKind {
    BadHeader,
    BadLength,
    BadFlags,
    CutShort,
    BadType,
    BadAddressType,
    BadCount,
    Left,
}

fn fault<T>(kind: RtsKind, place: usize) -> Result<T, RtsFault> {
    Err(RtsFault { kind, place })
}

#[derive(Clone, Copy, PartialEq, Eq, Debug)]
pub enum Command<'a> {
    Window(u32),
    Ack(Ack),
    Timeout(u32),
    Cookie(Cookie),
    Lifetime(u32),
    Keepalive(u32),
    Version(u32),
    Empty,
    Padding(&'a [u8]),
    NegativeAnce,
    Ance,
    /// The 4 or 16 bytes of the address and the padding behind them.
    Address(&'a [u8], &'a [u8]),
    Group(Cookie),
    Destination(u32),
    PingTraffic(u32),
}

#[derive(Clone, Copy, PartialEq, Eq, Debug, Default)]
pub struct Ack {
    pub received: u32,
    pub window: u32,
    pub cookie: Cookie,
}

impl Ack {
    /// The edge that this acknowledgement tells.
    pub fn edge(&self) -> u64 {
        u64::from(self.received) + u64::from(self.window)
    }
}

/// What the signature of a packet in the table of names can have at most, and one more.
const MOST_COMMANDS: usize = 8;

/// A packet's flags and its commands without Padding; `count` goes on where there is no room.
struct View<'a> {
    flags: u16,
    commands: [Command<'a>; MOST_COMMANDS],
    count: usize,
}

fn u16_at(bytes: &[u8], place: usize) -> u16 {
    u16::from_le_bytes([bytes[place], bytes[place + 1]])
}

fn u32_at(bytes: &[u8], place: usize) -> u32 {
    u32::from_le_bytes(bytes[place..place + 4].try_into().unwrap())
}

fn cookie_at(bytes: &[u8], place: usize) -> Cookie {
    Cookie(bytes[place..place + 16].try_into().unwrap())
}

fn view(bytes: &[u8]) -> Result<View<'_>, RtsFault> {
    let flags = read_flags(bytes)?;
    let mut view = View { flags, commands: [Command::Empty; MOST_COMMANDS], count: 0 };
    read_commands(bytes, |command| {
        if matches!(command, Command::Padding(_)) {
            return;
        }
        if let Some(room) = view.commands.get_mut(view.count) {
            *room = command;
        }
        view.count += 1;
    })?;
    Ok(view)
}

/// The flags of a packet with whose header nothing is wrong.
pub fn read_flags(bytes: &[u8]) -> Result<u16, RtsFault> {
    if bytes.len() < HEADER_LEN {
        return fault(RtsKind::CutShort, bytes.len());
    }
    for place in (0..8).chain(10..16) {
        if bytes[place] != FRONT.get(place).copied().unwrap_or(0) {
            return fault(RtsKind::BadHeader, place);
        }
    }
    if usize::from(u16_at(bytes, 8)) != bytes.len() {
        return fault(RtsKind::BadLength, 8);
    }
    let flags = u16_at(bytes, 16);
    if flags & !ALL_FLAGS != 0 {
        return fault(RtsKind::BadFlags, 16);
    }
    Ok(flags)
}

/// Tells the commands behind such a header one by one, up to the first fault.
pub fn read_commands<'a>(
    bytes: &'a [u8],
    mut tell: impl FnMut(Command<'a>),
) -> Result<(), RtsFault> {
    let mut place = HEADER_LEN;
    for _ in 0..u16_at(bytes, 18) {
        let (command, len) = command_at(bytes, place)?;
        place += len;
        tell(command);
    }
    if place < bytes.len() {
        return fault(RtsKind::Left, place);
    }
    Ok(())
}

/// The command that begins at a place, and its length.
fn command_at(bytes: &[u8], place: usize) -> Result<(Command<'_>, usize), RtsFault> {
    let len = command_len(bytes, place)?;
    let number = || u32_at(bytes, place + 4);
    let cookie = || cookie_at(bytes, place + 4);
    let end = place + len;
    let command = match u32_at(bytes, place) {
        0 => Command::Window(number()),
        1 => Command::Ack(Ack {
            received: number(),
            window: u32_at(bytes, place + 8),
            cookie: cookie_at(bytes, place + 12),
        }),
        2 => Command::Timeout(number()),
        3 => Command::Cookie(cookie()),
        4 => Command::Lifetime(number()),
        5 => Command::Keepalive(number()),
        6 => Command::Version(number()),
        7 => Command::Empty,
        8 => Command::Padding(&bytes[place + 8..end]),
        9 => Command::NegativeAnce,
        10 => Command::Ance,
        11 => Command::Address(&bytes[place + 8..end - 12], &bytes[end - 12..end]),
        12 => Command::Group(cookie()),
        13 => Command::Destination(number()),
        _ => Command::PingTraffic(number()),
    };
    Ok((command, len))
}

/// The length of the command that begins at a place, where all of it is there and in order.
fn command_len(bytes: &[u8], place: usize) -> Result<usize, RtsFault> {
    let left = bytes.len() - place;
    if left < 4 {
        return fault(RtsKind::CutShort, place);
    }
    let kind = u32_at(bytes, place);
    let fixed = match kind {
        7 | 9 | 10 => 4,
        0 | 2 | 4 | 5 | 6 | 8 | 11 | 13 | 14 => 8,
        1 => 28,
        3 | 12 => 20,
        _ => return fault(RtsKind::BadType, place),
    };
    if left < fixed {
        return fault(RtsKind::CutShort, place);
    }
    let number = if fixed > 4 { u32_at(bytes, place + 4) } else { 0 };
    let len = match (kind, number) {
        (8, count) if count > GREATEST_PADDING => return fault(RtsKind::BadCount, place + 4),
        (8, count) => 8 + count as usize,
        (11, 0) => 24,
        (11, 1) => 36,
        (11, _) => return fault(RtsKind::BadAddressType, place + 4),
        (13, 4..) => return fault(RtsKind::BadType, place + 4),
        _ => fixed,
    };
    if left < len {
        fault(RtsKind::CutShort, place)
    } else {
        Ok(len)
    }
}

/// The named packets. A packet that is forwarded under another name has one variant for both.
#[derive(Clone, Copy, PartialEq, Eq, Debug)]
pub enum Packet {
    ConnA1 {
        connection: Cookie,
        cookie: Cookie,
        window: u32,
    },
    ConnA2 {
        connection: Cookie,
        cookie: Cookie,
        lifetime: u32,
        window: u32,
    },
    ConnA3 {
        timeout: u32,
    },
    ConnB1 {
        connection: Cookie,
        cookie: Cookie,
        lifetime: u32,
        keepalive: u32,
        group: Cookie,
    },
    ConnB2 {
        connection: Cookie,
        cookie: Cookie,
        window: u32,
        timeout: u32,
        group: Cookie,
        address: [u8; 4],
    },
    ConnB3 {
        window: u32,
    },
    /// CONN/C1 and C2.
    ConnC {
        window: u32,
        timeout: u32,
    },
    InR1A1(Chain),
    InR1A2 {
        chain: Chain,
        window: u32,
        timeout: u32,
    },
    /// IN_R1/A3 and A4.
    InR1A3 {
        to: u32,
        window: u32,
        timeout: u32,
    },
    /// IN_R1/A5 and A6.
    InR1A5 {
        successor: Cookie,
    },
    InR1B1,
    InR1B2 {
        window: u32,
    },
    InR2A2 {
        successor: Cookie,
    },
    /// IN_R2/A3 and A4.
    InR2A3 {
        to: u32,
    },
    /// OUT_R1/A1 and A2.
    OutR1A1 {
        to: u32,
    },
    OutR1A3 {
        chain: Chain,
        window: u32,
    },
    OutR2C1,
    OutR1A4 {
        chain: Chain,
        lifetime: u32,
        window: u32,
        timeout: u32,
    },
    /// OUT_R1/A5 and A6.
    OutR1A5 {
        to: u32,
        timeout: u32,
    },
    /// OUT_R1/A7 and A8.
    OutR1A7 {
        to: u32,
        successor: Cookie,
    },
    /// OUT_R1/A9 and A10.
    OutR1A9,
    End,
    Ack(Ack),
    AckTo {
        to: u32,
        ack: Ack,
    },
    KeepAlive(u32),
    PingTraffic,
    Ping,
    /// Only in the answer to an echo request.
    Echo,
}

/// The three cookies of a replacement.
#[derive(Clone, Copy, PartialEq, Eq, Debug)]
pub struct Chain {
    pub connection: Cookie,
    pub predecessor: Cookie,
    pub successor: Cookie,
}

impl Chain {
    fn of(connection: Cookie, predecessor: Cookie, successor: Cookie) -> Chain {
        Chain { connection, predecessor, successor }
    }
}

pub const TO_CLIENT: u32 = 0;
pub const TO_SERVER: u32 = 2;
pub const TO_OUT_PROXY: u32 = 3;

/// Why the bytes of an RTS packet are no named packet of the pipe.
pub enum Unreadable {
    Rts(RtsFault),
    Unknown,
    OutOfRange { command: u32, value: u32 },
}

/// Reads the packet that came on a kind of leg, towards the server where `up`.
pub fn read(bytes: &[u8], kind: LegKind, up: bool) -> Result<Packet, Unreadable> {
    let view = view(bytes).map_err(Unreadable::Rts)?;
    if view.count > MOST_COMMANDS {
        return Err(Unreadable::Unknown);
    }
    let commands = &view.commands[..view.count];
    let packet = match (kind, up) {
        (LegKind::ClientOut, true) => on_co_up(view.flags, commands),
        (LegKind::ClientOut, false) => on_out_down(view.flags, commands, true),
        (LegKind::OutServer, true) => on_os_up(view.flags, commands),
        (LegKind::OutServer, false) => on_out_down(view.flags, commands, false),
        (LegKind::ClientIn, true) => on_ci_up(view.flags, commands),
        (LegKind::ClientIn, false) => None,
        (LegKind::InServer, true) => on_is_up(view.flags, commands),
        (LegKind::InServer, false) => on_is_down(view.flags, commands),
    };
    let packet = packet.ok_or(Unreadable::Unknown)?;
    match commands.iter().find_map(out_of_range) {
        Some((command, value)) => Err(Unreadable::OutOfRange { command, value }),
        None => Ok(packet),
    }
}

/// The type and the value of a command whose value is out of range.
fn out_of_range(command: &Command) -> Option<(u32, u32)> {
    let (kind, value, fits) = match *command {
        Command::Window(n) => (0, n, (8_192..=262_144).contains(&n)),
        Command::Timeout(n) => (2, n, (120_000..=14_400_000).contains(&n)),
        Command::Lifetime(n) => (4, n, (131_072..=2_147_483_648).contains(&n)),
        Command::Keepalive(n) => (5, n, n == 0 || n >= 60_000),
        Command::Version(n) => (6, n, n == 1),
        _ => return None,
    };
    (!fits).then_some((kind, value))
}

fn on_co_up(flags: u16, commands: &[Command]) -> Option<Packet> {
    use Command::*;
    Some(match (flags, commands) {
        (0, &[Version(_), Cookie(connection), Cookie(cookie), Window(window)]) => {
            Packet::ConnA1 { connection, cookie, window }
        }
        (RECYCLE, &[Version(_), Cookie(a), Cookie(b), Cookie(c), Window(window)]) => {
            Packet::OutR1A3 { chain: Chain::of(a, b, c), window }
        }
        (PING, [Empty]) => Packet::OutR2C1,
        _ => return None,
    })
}

fn on_os_up(flags: u16, commands: &[Command]) -> Option<Packet> {
    use Command::*;
    const R1: u16 = OUT_CHANNEL | RECYCLE;
    Some(match (flags, commands) {
        (
            OUT_CHANNEL,
            &[Version(_), Cookie(connection), Cookie(cookie), Lifetime(lifetime), Window(window)],
        ) => Packet::ConnA2 { connection, cookie, lifetime, window },
        (
            R1,
            &[Version(_), Cookie(a), Cookie(b), Cookie(c), Lifetime(n), Window(w), Timeout(t)],
        ) => {
            let chain = Chain::of(a, b, c);
            Packet::OutR1A4 { chain, lifetime: n, window: w, timeout: t }
        }
        (OTHER_CMD, &[Command::Ack(ack)]) => Packet::Ack(ack),
        (OTHER_CMD, [PingTraffic(_)]) => Packet::PingTraffic,
        (PING, []) => Packet::Ping,
        _ => return None,
    })
}

/// The packets of os d, or of co d where `near`: but for CONN/A3 they have the same signatures.
fn on_out_down(flags: u16, commands: &[Command], near: bool) -> Option<Packet> {
    use Command::*;
    Some(match (flags, commands) {
        (0, &[Timeout(timeout)]) if near => Packet::ConnA3 { timeout },
        (0, &[Version(_), Window(window), Timeout(timeout)]) => Packet::ConnC { window, timeout },
        (0, &[Destination(to), Version(_), Window(window), Timeout(timeout)]) => {
            Packet::InR1A3 { to, window, timeout }
        }
        (0, &[Destination(to)]) => Packet::InR2A3 { to },
        (RECYCLE, &[Destination(to)]) => Packet::OutR1A1 { to },
        (OUT_CHANNEL, &[Destination(to), Version(_), Timeout(timeout)]) => {
            Packet::OutR1A5 { to, timeout }
        }
        (0, [Ance]) => Packet::OutR1A9,
        (EOF, [Empty]) => Packet::End,
        (OTHER_CMD, &[Destination(to), Command::Ack(ack)]) => Packet::AckTo { to, ack },
        (PING, []) => Packet::Ping,
        _ => return None,
    })
}

fn on_ci_up(flags: u16, commands: &[Command]) -> Option<Packet> {
    use Command::*;
    Some(match (flags, commands) {
        (0, &[Version(_), Cookie(a), Cookie(b), Lifetime(n), Keepalive(time), Group(group)]) => {
            Packet::ConnB1 { connection: a, cookie: b, lifetime: n, keepalive: time, group }
        }
        (RECYCLE, &[Version(_), Cookie(a), Cookie(b), Cookie(c)]) => {
            Packet::InR1A1(Chain::of(a, b, c))
        }
        (OTHER_CMD, &[Keepalive(keepalive)]) => Packet::KeepAlive(keepalive),
        _ => return on_in_up(flags, commands),
    })
}

fn on_is_up(flags: u16, commands: &[Command]) -> Option<Packet> {
    use Command::*;
    const R1: u16 = IN_CHANNEL | RECYCLE;
    Some(match (flags, commands) {
        (
            IN_CHANNEL,
            &[Version(_), Cookie(a), Cookie(b), Window(w), Timeout(n), Group(group), Address(..)],
        ) => {
            let address = [0; 4];
            Packet::ConnB2 { connection: a, cookie: b, window: w, timeout: n, group, address }
        }
        (R1, &[Version(_), Cookie(a), Cookie(b), Cookie(c), Window(window), Timeout(timeout)]) => {
            Packet::InR1A2 { chain: Chain::of(a, b, c), window, timeout }
        }
        (R1, &[Cookie(successor)]) => Packet::InR2A2 { successor },
        _ => return on_in_up(flags, commands),
    })
}

/// What ci u and is u share.
fn on_in_up(flags: u16, commands: &[Command]) -> Option<Packet> {
    use Command::*;
    Some(match (flags, commands) {
        (0, &[Cookie(successor)]) => Packet::InR1A5 { successor },
        (OUT_CHANNEL, &[Destination(to), Cookie(successor)]) => Packet::OutR1A7 { to, successor },
        (EOF, [Empty]) => Packet::End,
        (OTHER_CMD, &[Destination(to), Command::Ack(ack)]) => Packet::AckTo { to, ack },
        (PING, []) => Packet::Ping,
        _ => return None,
    })
}

fn on_is_down(flags: u16, commands: &[Command]) -> Option<Packet> {
    use Command::*;
    Some(match (flags, commands) {
        (0, &[Window(window), Version(_)]) => Packet::ConnB3 { window },
        (0, [Empty]) => Packet::InR1B1,
        (0, &[Window(window)]) => Packet::InR1B2 { window },
        (OTHER_CMD, &[Command::Ack(ack)]) => Packet::Ack(ack),
        (PING, []) => Packet::Ping,
        _ => return None,
    })
}

/// Writes a packet behind what stands in `out` already.
struct Writer<'a> {
    out: &'a mut Vec<u8>,
    start: usize,
    count: u16,
}

impl Writer<'_> {
    fn new(out: &mut Vec<u8>, flags: u16) -> Writer<'_> {
        let start = out.len();
        out.extend_from_slice(&FRONT);
        out.extend_from_slice(&[0; 8]);
        out.extend_from_slice(&flags.to_le_bytes());
        out.extend_from_slice(&[0; 2]);
        Writer { out, start, count: 0 }
    }

    fn kind(mut self, kind: u32) -> Self {
        self.count += 1;
        self.bytes(&kind.to_le_bytes())
    }

    fn bytes(self, bytes: &[u8]) -> Self {
        self.out.extend_from_slice(bytes);
        self
    }

    fn number(self, kind: u32, value: u32) -> Self {
        self.kind(kind).bytes(&value.to_le_bytes())
    }

    fn window(self, n: u32) -> Self {
        self.number(0, n)
    }

    fn ack(self, ack: &Ack) -> Self {
        self.number(1, ack.received).bytes(&ack.window.to_le_bytes()).bytes(&ack.cookie.0)
    }

    fn timeout(self, n: u32) -> Self {
        self.number(2, n)
    }

    fn cookie(self, cookie: &Cookie) -> Self {
        self.kind(3).bytes(&cookie.0)
    }

    fn chain(self, chain: &Chain) -> Self {
        self.cookie(&chain.connection).cookie(&chain.predecessor).cookie(&chain.successor)
    }

    fn version(self) -> Self {
        self.number(6, 1)
    }

    fn to(self, node: u32) -> Self {
        self.number(13, node)
    }

    fn end(self) {
        let len = (self.out.len() - self.start) as u16;
        self.out[self.start + 8..self.start + 10].copy_from_slice(&len.to_le_bytes());
        self.out[self.start + 18..self.start + 20].copy_from_slice(&self.count.to_le_bytes());
    }
}

impl Packet {
    /// Appends the packet's bytes.
    pub fn write(&self, out: &mut Vec<u8>) {
        match self {
            Packet::ConnA1 { connection, cookie, window } => {
                Writer::new(out, 0).version().cookie(connection).cookie(cookie).window(*window)
            }
            Packet::ConnA2 { connection, cookie, lifetime, window } => {
                Writer::new(out, OUT_CHANNEL)
                    .version()
                    .cookie(connection)
                    .cookie(cookie)
                    .number(4, *lifetime)
                    .window(*window)
            }
            Packet::ConnA3 { timeout } => Writer::new(out, 0).timeout(*timeout),
            Packet::ConnB1 { connection, cookie, lifetime, keepalive, group } => {
                let opened = Writer::new(out, 0).version().cookie(connection).cookie(cookie);
                opened.number(4, *lifetime).number(5, *keepalive).kind(12).bytes(&group.0)
            }
            Packet::ConnB2 { connection, cookie, window, timeout, group, address } => {
                let opened =
                    Writer::new(out, IN_CHANNEL).version().cookie(connection).cookie(cookie);
                let told = opened.window(*window).timeout(*timeout).kind(12).bytes(&group.0);
                told.number(11, 0).bytes(address).bytes(&[0; 12])
            }
            Packet::ConnB3 { window } => Writer::new(out, 0).window(*window).version(),
            Packet::ConnC { window, timeout } => {
                Writer::new(out, 0).version().window(*window).timeout(*timeout)
            }
            Packet::InR1A1(chain) => Writer::new(out, RECYCLE).version().chain(chain),
            Packet::InR1A2 { chain, window, timeout } => Writer::new(out, IN_CHANNEL | RECYCLE)
                .version()
                .chain(chain)
                .window(*window)
                .timeout(*timeout),
            Packet::InR1A3 { to, window, timeout } => {
                Writer::new(out, 0).to(*to).version().window(*window).timeout(*timeout)
            }
            Packet::InR1A5 { successor } => Writer::new(out, 0).cookie(successor),
            Packet::InR1B1 => Writer::new(out, 0).kind(7),
            Packet::InR1B2 { window } => Writer::new(out, 0).window(*window),
            Packet::InR2A2 { successor } => {
                Writer::new(out, IN_CHANNEL | RECYCLE).cookie(successor)
            }
            Packet::InR2A3 { to } => Writer::new(out, 0).to(*to),
            Packet::OutR1A1 { to } => Writer::new(out, RECYCLE).to(*to),
            Packet::OutR1A3 { chain, window } => {
                Writer::new(out, RECYCLE).version().chain(chain).window(*window)
            }
            Packet::OutR2C1 => Writer::new(out, PING).kind(7),
            Packet::OutR1A4 { chain, lifetime, window, timeout } => {
                let opened = Writer::new(out, OUT_CHANNEL | RECYCLE).version().chain(chain);
                opened.number(4, *lifetime).window(*window).timeout(*timeout)
            }
            Packet::OutR1A5 { to, timeout } => {
                Writer::new(out, OUT_CHANNEL).to(*to).version().timeout(*timeout)
            }
            Packet::OutR1A7 { to, successor } => {
                Writer::new(out, OUT_CHANNEL).to(*to).cookie(successor)
            }
            Packet::OutR1A9 => Writer::new(out, 0).kind(10),
            Packet::End => Writer::new(out, EOF).kind(7),
            Packet::Ack(ack) => Writer::new(out, OTHER_CMD).ack(ack),
            Packet::AckTo { to, ack } => Writer::new(out, OTHER_CMD).to(*to).ack(ack),
            Packet::KeepAlive(keepalive) => Writer::new(out, OTHER_CMD).number(5, *keepalive),
            Packet::PingTraffic => Writer::new(out, OTHER_CMD).number(14, 0),
            Packet::Ping => Writer::new(out, PING),
            Packet::Echo => Writer::new(out, ECHO),
        }
        .end();
    }
}
