//! What one DNS message is by its bytes alone (RFC 8490, RFC 8765). Nothing is copied out of it.

use crate::wire::{be16, name_length};

pub const KEEPALIVE: u16 = 1;
pub const RETRY_DELAY: u16 = 2;
pub const SUBSCRIBE: u16 = 0x40;
pub const PUSH: u16 = 0x41;
pub const UNSUBSCRIBE: u16 = 0x42;
pub const RECONFIRM: u16 = 0x43;
/// Type or class 255: any.
pub const ANY: u16 = 255;
pub const MAX_MESSAGE: usize = 65_535;
const HEADER: usize = 12;
const DATA: usize = HEADER + 4;
const OPCODE_DSO: u8 = 6;

#[derive(Clone, Copy, Debug, PartialEq, Eq)]
pub enum Rcode {
    FormErr = 1,
    ServFail = 2,
    NotAuth = 9,
    DsoTypeNi = 11,
}

/// Start and length of a part of a message.
pub type Place = (usize, usize);

#[derive(Clone, Copy, Debug, PartialEq, Eq)]
pub enum Judgment<'a> {
    NotOurs,
    Abort,
    Error(Rcode),
    Keepalive,
    Subscribe { name: &'a [u8], rtype: u16, class: u16 },
    Unsubscribe(u16),
    Reconfirm([Place; 4]),
}

/// The judgment, and whether the message came to the test of its first TLV as a Keepalive.
pub fn judge(message: &[u8]) -> (Judgment<'_>, bool) {
    if message.len() < HEADER {
        return (Judgment::Abort, false);
    }
    if message[2] >> 3 & 15 != OPCODE_DSO {
        return (Judgment::NotOurs, false);
    }
    if message[2] & 0x80 != 0 {
        return (Judgment::Abort, false);
    }
    let id = be16(message, 0);
    if message[4..HEADER] != [0; 8] || !tlvs_fill(&message[HEADER..]) {
        let bad_form = if id == 0 { Judgment::Abort } else { Judgment::Error(Rcode::FormErr) };
        return (bad_form, false);
    }
    let tlv_type = be16(message, HEADER);
    let data = &message[DATA..DATA + usize::from(be16(message, HEADER + 2))];
    let judgment = match (tlv_type, id == 0) {
        (KEEPALIVE, false) if data.len() == 8 => Judgment::Keepalive,
        (KEEPALIVE, false) => Judgment::Error(Rcode::FormErr),
        (SUBSCRIBE, false) => subscribe(data).unwrap_or(Judgment::Error(Rcode::FormErr)),
        (UNSUBSCRIBE, true) if data.len() == 2 => Judgment::Unsubscribe(be16(data, 0)),
        (RECONFIRM, true) => reconfirm(data).unwrap_or(Judgment::Abort),
        (RETRY_DELAY | PUSH | UNSUBSCRIBE | RECONFIRM, _) | (_, true) => Judgment::Abort,
        (_, false) => Judgment::Error(Rcode::DsoTypeNi),
    };
    (judgment, tlv_type == KEEPALIVE)
}

/// Whether the bytes are one TLV or more that end exactly at the end.
fn tlvs_fill(mut bytes: &[u8]) -> bool {
    loop {
        if bytes.len() < 4 {
            return false;
        }
        let Some(rest) = bytes.get(4 + usize::from(be16(bytes, 2))..) else {
            return false;
        };
        if rest.is_empty() {
            return true;
        }
        bytes = rest;
    }
}

fn subscribe(data: &[u8]) -> Option<Judgment<'_>> {
    let end = name_length(data)?;
    let whole = data.len() == end + 4;
    whole.then(|| Judgment::Subscribe { name: &data[..end], rtype: be16(data, end), class: be16(data, end + 2) })
}

fn reconfirm(data: &[u8]) -> Option<Judgment<'_>> {
    let end = name_length(data)?;
    if data.len() < end + 4 || be16(data, end) == ANY || be16(data, end + 2) == ANY {
        return None;
    }
    let parts = [(0, end), (end, 2), (end + 2, 2), (end + 4, data.len() - end - 4)];
    Some(Judgment::Reconfirm(parts.map(|(start, length)| (DATA + start, length))))
}

/// The kind of a message by its bytes alone: 40 to 47, or 18 for one that is too long.
pub fn kind(message: &[u8]) -> u32 {
    if message.len() > MAX_MESSAGE {
        return 18;
    }
    match judge(message).0 {
        Judgment::NotOurs => 40,
        Judgment::Abort => 41,
        Judgment::Error(Rcode::DsoTypeNi) => 43,
        Judgment::Error(_) => 42,
        Judgment::Keepalive => 44,
        Judgment::Subscribe { .. } => 45,
        Judgment::Unsubscribe(_) => 46,
        Judgment::Reconfirm(_) => 47,
    }
}
