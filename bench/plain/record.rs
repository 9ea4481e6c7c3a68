//! The lines of a recording.

use crate::hex;
use crate::leg::{Leg, LegKind};
use std::io::BufRead;

#[derive(Clone, Copy, PartialEq, Eq)]
pub enum Side {
    Client,
    Server,
}

impl Side {
    pub fn letter(self) -> char {
        match self {
            Side::Client => 'c',
            Side::Server => 's',
        }
    }
}

#[derive(Clone, Copy, PartialEq, Eq)]
pub enum Dir {
    Up,
    Down,
}

impl Dir {
    pub fn letter(self) -> char {
        match self {
            Dir::Up => 'u',
            Dir::Down => 'd',
        }
    }
}

/// A line; a leg None is `cs`.
pub enum Line<'a> {
    Set { key: &'a [u8], value: u32 },
    Give { side: Side, hex: &'a [u8] },
    Take { side: Side },
    Close { side: Side },
    Send { leg: Option<Leg>, dir: Dir, count: usize },
    Move { leg: Option<Leg>, dir: Dir, count: usize },
    Open { leg: Leg, same: bool },
    Break { leg: Leg },
    End { leg: Leg, dir: Dir },
    Tick { now: u64 },
    RecycleIn,
    RecycleOut,
    Settle { rounds: u32 },
}

const MOST_BYTES: usize = 65_536;

fn number(word: &[u8]) -> Option<u64> {
    if word.is_empty() || (word.len() > 1 && word.starts_with(b"0")) {
        return None;
    }
    word.iter().try_fold(0u64, |number, digit| {
        let digit = digit.is_ascii_digit().then_some(digit - b'0')?;
        number.checked_mul(10)?.checked_add(u64::from(digit))
    })
}

fn side(word: &[u8]) -> Option<Side> {
    match word {
        b"c" => Some(Side::Client),
        b"s" => Some(Side::Server),
        _ => None,
    }
}

fn dir(word: &[u8]) -> Option<Dir> {
    match word {
        b"u" => Some(Dir::Up),
        b"d" => Some(Dir::Down),
        _ => None,
    }
}

fn leg(word: &[u8]) -> Option<Leg> {
    let (kind, rest) = word.split_at_checked(2)?;
    let kind = match kind {
        b"co" => LegKind::ClientOut,
        b"os" => LegKind::OutServer,
        b"ci" => LegKind::ClientIn,
        b"is" => LegKind::InServer,
        _ => return None,
    };
    let number = u32::try_from(number(rest)?).ok().filter(|&number| number > 0)?;
    Some(Leg::new(kind, number))
}

fn leg_of(word: &[u8], roles: bool) -> Option<Option<Leg>> {
    if roles {
        leg(word).map(Some)
    } else {
        (word == b"cs").then_some(None)
    }
}

fn count(word: &[u8]) -> Option<usize> {
    number(word).filter(|n| (1..=MOST_BYTES as u64).contains(n)).map(|n| n as usize)
}

fn set<'a>(key: &'a [u8], value: &[u8]) -> Option<Line<'a>> {
    let value = u32::try_from(number(value)?).ok()?;
    let fits = match key {
        b"cwin" | b"iwin" | b"owin" | b"swin" => (8_192..=262_144).contains(&value),
        b"ilife" | b"olife" => (131_072..=2_147_483_648).contains(&value),
        b"itime" | b"otime" => (120_000..=14_400_000).contains(&value),
        b"keep" => value == 0 || value >= 60_000,
        b"same" => value <= 1,
        _ => false,
    };
    fits.then_some(Line::Set { key, value })
}

/// Reads a line behind the first one, or None where it is outside the grammar. The digits of a give
/// are left to the caller.
fn read_line(text: &[u8], roles: bool) -> Option<Line<'_>> {
    if let Some(rest) = text.strip_prefix(b"give ") {
        let (end, hex) = rest.split_at_checked(2)?;
        let side = side(end.strip_suffix(b" ")?)?;
        return hex::fits(hex, MOST_BYTES).then_some(Line::Give { side, hex });
    }
    let mut words: [&[u8]; 5] = [&[]; 5];
    let mut len = 0;
    for word in text.split(|&byte| byte == b' ') {
        if len == words.len() || word.is_empty() {
            return None;
        }
        words[len] = word;
        len += 1;
    }
    match &words[..len] {
        &[b"take", end] => Some(Line::Take { side: side(end)? }),
        &[b"send", leg, way, n] => {
            Some(Line::Send { leg: leg_of(leg, roles)?, dir: dir(way)?, count: count(n)? })
        }
        &[b"move", leg, way, n] => {
            Some(Line::Move { leg: leg_of(leg, roles)?, dir: dir(way)?, count: count(n)? })
        }
        words if roles => read_roles_line(words),
        _ => None,
    }
}

fn read_roles_line<'a>(words: &[&'a [u8]]) -> Option<Line<'a>> {
    match words {
        &[b"set", key, value] => set(key, value),
        &[b"close", end] => Some(Line::Close { side: side(end)? }),
        &[b"open", name] => Some(Line::Open { leg: leg(name)?, same: false }),
        &[b"open", name, b"same"] => {
            let leg = leg(name)?;
            (leg.kind == LegKind::ClientIn).then_some(Line::Open { leg, same: true })
        }
        &[b"break", name] => Some(Line::Break { leg: leg(name)? }),
        &[b"end", name, way] => Some(Line::End { leg: leg(name)?, dir: dir(way)? }),
        &[b"tick", moment] => {
            number(moment).filter(|&now| now <= i64::MAX as u64).map(|now| Line::Tick { now })
        }
        [b"recycle", b"in"] => Some(Line::RecycleIn),
        [b"recycle", b"out"] => Some(Line::RecycleOut),
        &[b"settle", n] => {
            let rounds = number(n).filter(|n| (1..=100_000).contains(n))? as u32;
            Some(Line::Settle { rounds })
        }
        _ => None,
    }
}

/// A recording of which every line was read.
pub struct Recording<'a> {
    pub roles: bool,
    lines: &'a [u8],
}

/// The first line, without its LF, and the rest.
fn split_line(text: &[u8]) -> Option<(&[u8], &[u8])> {
    let mut rest = text;
    // A slice reads without a fault, and finds the LF many bytes at a time.
    let len = rest.skip_until(b'\n').ok().filter(|&len| len > 0)?;
    let line = &text[..len];
    Some((line.strip_suffix(b"\n").unwrap_or(line), rest))
}

/// The lines, without their LFs.
pub fn lines_of(mut text: &[u8]) -> impl Iterator<Item = &[u8]> {
    std::iter::from_fn(move || {
        let (line, rest) = split_line(text)?;
        text = rest;
        Some(line)
    })
}

impl<'a> Recording<'a> {
    /// Reads all lines; refuses with the number of the first one outside the grammar.
    pub fn read(text: &'a [u8]) -> Result<Recording<'a>, u64> {
        let (first, lines) = split_line(text).ok_or(1u64)?;
        let roles = match first {
            b"rh 1 direct" => false,
            b"rh 1 roles" => true,
            _ => return Err(1),
        };
        let mut keys: Vec<&[u8]> = Vec::new();
        let mut others = false;
        for (text, count) in lines_of(lines).zip(2..) {
            match read_line(text, roles).ok_or(count)? {
                Line::Set { key, .. } if others || keys.contains(&key) => return Err(count),
                Line::Give { hex, .. } if !hex::is_hex(hex) => return Err(count),
                Line::Set { key, .. } => keys.push(key),
                _ => others = true,
            }
        }
        Ok(Recording { roles, lines })
    }

    /// The lines behind the first one.
    pub fn lines(&self) -> impl Iterator<Item = Line<'a>> + use<'a> {
        let roles = self.roles;
        lines_of(self.lines).map_while(move |text| read_line(text, roles))
    }
}
