//! RPC PDUs: the common header of connection-oriented RPC (C706 chapter 12), and what an end gives.

use std::fmt;

pub const HEADER_LEN: usize = 16;
pub const GREATEST_PDU: usize = 8_192;
pub const PTYPE_RTS: u8 = 20;

#[derive(Clone, Copy, PartialEq, Eq, Debug)]
pub enum HeadFault {
    Version(u8),
    Minor(u8),
    ByteOrder(u8),
    TooShort(u16),
    TooLong(u16),
}

impl fmt::Display for HeadFault {
    fn fmt(&self, f: &mut fmt::Formatter) -> fmt::Result {
        match self {
            HeadFault::Version(n) => write!(f, "Version {n}"),
            HeadFault::Minor(n) => write!(f, "Minor {n}"),
            HeadFault::ByteOrder(n) => write!(f, "ByteOrder {n}"),
            HeadFault::TooShort(n) => write!(f, "TooShort {n}"),
            HeadFault::TooLong(n) => write!(f, "TooLong {n}"),
        }
    }
}

#[derive(Clone, Copy, PartialEq, Eq, Debug)]
pub enum PduFault {
    Cut(usize),
    Head(HeadFault),
    Rts,
    Length { frag: u16, len: usize },
}

impl fmt::Display for PduFault {
    fn fmt(&self, f: &mut fmt::Formatter) -> fmt::Result {
        match self {
            PduFault::Cut(len) => write!(f, "Cut {len}"),
            PduFault::Head(fault) => fault.fmt(f),
            PduFault::Rts => f.write_str("Rts"),
            PduFault::Length { frag, len } => write!(f, "Length {frag} {len}"),
        }
    }
}

/// The frag_length that a header tells; `bytes` has at least 16 bytes.
pub fn frame_len(bytes: &[u8]) -> Result<usize, HeadFault> {
    if bytes[0] != 5 {
        return Err(HeadFault::Version(bytes[0]));
    }
    if bytes[1] > 1 {
        return Err(HeadFault::Minor(bytes[1]));
    }
    let pair = [bytes[8], bytes[9]];
    let frag = match bytes[4] >> 4 {
        0 => u16::from_be_bytes(pair),
        1 => u16::from_le_bytes(pair),
        _ => return Err(HeadFault::ByteOrder(bytes[4])),
    };
    match usize::from(frag) {
        len if len < HEADER_LEN => Err(HeadFault::TooShort(frag)),
        len if len > GREATEST_PDU => Err(HeadFault::TooLong(frag)),
        len => Ok(len),
    }
}

/// The call_id of a header in which nothing is wrong.
pub fn call_id(header: &[u8]) -> u32 {
    let four = [header[12], header[13], header[14], header[15]];
    if header[4] >> 4 == 0 {
        u32::from_be_bytes(four)
    } else {
        u32::from_le_bytes(four)
    }
}

/// Whether an end may give these bytes.
pub fn check(bytes: &[u8]) -> Result<(), PduFault> {
    check_front(bytes, bytes.len())
}

/// Whether an end may give `len` bytes, of which the first are these: a whole header, or all.
pub fn check_front(front: &[u8], len: usize) -> Result<(), PduFault> {
    if len < HEADER_LEN {
        return Err(PduFault::Cut(len));
    }
    let frag = frame_len(front).map_err(PduFault::Head)?;
    if front[2] == PTYPE_RTS {
        return Err(PduFault::Rts);
    }
    if frag != len {
        return Err(PduFault::Length { frag: frag as u16, len });
    }
    Ok(())
}
