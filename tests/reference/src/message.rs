//! Judging one DNS message, without its length prefix: first by its bytes alone, then with what its session holds.

use crate::name;

pub const HEADER: usize = 12;
pub const TLV_HEADER: usize = 4;
pub const MAX_MESSAGE: usize = 65_535;
pub const MAX_SUBSCRIPTIONS: usize = 16;
pub const OPCODE_DSO: u8 = 6;
/// Type or class 255: any.
pub const ANY: u16 = 255;

pub const KEEPALIVE: u16 = 1;
pub const RETRY_DELAY: u16 = 2;
pub const SUBSCRIBE: u16 = 0x0040;
pub const PUSH: u16 = 0x0041;
pub const UNSUBSCRIBE: u16 = 0x0042;
pub const RECONFIRM: u16 = 0x0043;

/// The RCODEs of a reply with an error.
#[derive(Clone, Copy, Debug, PartialEq, Eq)]
pub enum ErrorCode {
    FormErr = 1,
    ServFail = 2,
    NotAuth = 9,
    DsoTypeNi = 11,
}

/// A name, type and class that a client subscribes to.
#[derive(Clone, Debug, PartialEq, Eq)]
pub struct Question {
    pub name: Vec<u8>,
    pub rtype: u16,
    pub class: u16,
}

impl Question {
    pub fn same(&self, other: &Question) -> bool {
        self.rtype == other.rtype && self.class == other.class && name::same(&self.name, &other.name)
    }
}

/// A live subscription: the message ID of the SUBSCRIBE that made it, and what it asked for.
#[derive(Clone, Debug, PartialEq, Eq)]
pub struct Subscription {
    pub id: u16,
    pub question: Question,
}

/// Where a part of a message stands, counted from the header's first byte.
#[derive(Clone, Copy, Debug, PartialEq, Eq)]
pub struct Place {
    pub start: usize,
    pub length: usize,
}

/// The four parts of a RECONFIRM.
#[derive(Clone, Copy, Debug, PartialEq, Eq)]
pub struct Parts {
    pub name: Place,
    pub rtype: Place,
    pub class: Place,
    pub rdata: Place,
}

/// What a message is.
#[derive(Clone, Debug, PartialEq, Eq)]
pub enum Verdict {
    /// The opcode is not 6.
    NotOurs,
    Abort,
    Error(ErrorCode),
    Keepalive,
    Subscribe(Question),
    Unsubscribe(u16),
    Reconfirm(Parts),
}

/// The verdict by bytes alone, and whether the message came to the test of its first TLV as a Keepalive.
#[derive(Clone, Debug, PartialEq, Eq)]
pub struct Judgment {
    pub verdict: Verdict,
    pub keepalive: bool,
}

pub fn be16(bytes: &[u8], at: usize) -> u16 {
    u16::from_be_bytes([bytes[at], bytes[at + 1]])
}

pub fn id(message: &[u8]) -> u16 {
    be16(message, 0)
}

/// Steps 1 to 5 without the test of used message IDs, then the data rules of UNSUBSCRIBE and RECONFIRM.
pub fn judge(message: &[u8]) -> Judgment {
    let other = |verdict| Judgment { verdict, keepalive: false };
    if message.len() < HEADER {
        return other(Verdict::Abort);
    }
    if (message[2] >> 3) & 0x0f != OPCODE_DSO {
        return other(Verdict::NotOurs);
    }
    if message[2] & 0x80 != 0 {
        return other(Verdict::Abort);
    }
    let counts_are_zero = message[4..HEADER].iter().all(|&byte| byte == 0);
    if !counts_are_zero || !tlvs_fill(&message[HEADER..]) {
        return other(bad_form(id(message)));
    }
    let rtype = be16(message, HEADER);
    Judgment { verdict: by_first_tlv(message, rtype), keepalive: rtype == KEEPALIVE }
}

fn bad_form(id: u16) -> Verdict {
    if id == 0 {
        Verdict::Abort
    } else {
        Verdict::Error(ErrorCode::FormErr)
    }
}

/// Whether the bytes are one TLV or more that end exactly at the end.
fn tlvs_fill(bytes: &[u8]) -> bool {
    let mut rest = bytes;
    loop {
        if rest.len() < TLV_HEADER {
            return false;
        }
        let end = TLV_HEADER + usize::from(be16(rest, 2));
        if rest.len() < end {
            return false;
        }
        rest = &rest[end..];
        if rest.is_empty() {
            return true;
        }
    }
}

fn by_first_tlv(message: &[u8], tlv_type: u16) -> Verdict {
    let start = HEADER + TLV_HEADER;
    let data = &message[start..start + usize::from(be16(message, HEADER + 2))];
    let unidirectional = id(message) == 0;
    match (tlv_type, unidirectional) {
        (RETRY_DELAY | PUSH, _) => Verdict::Abort,
        (KEEPALIVE | SUBSCRIBE, true) => Verdict::Abort,
        (UNSUBSCRIBE | RECONFIRM, false) => Verdict::Abort,
        (KEEPALIVE, false) => keepalive(data),
        (SUBSCRIBE, false) => subscribe(data),
        (UNSUBSCRIBE, true) => unsubscribe(data),
        (RECONFIRM, true) => reconfirm(data, start),
        (_, true) => Verdict::Abort,
        (_, false) => Verdict::Error(ErrorCode::DsoTypeNi),
    }
}

fn keepalive(data: &[u8]) -> Verdict {
    if data.len() == 8 {
        Verdict::Keepalive
    } else {
        Verdict::Error(ErrorCode::FormErr)
    }
}

fn subscribe(data: &[u8]) -> Verdict {
    match name::read(data, 0) {
        Some(end) if data.len() == end + 4 => Verdict::Subscribe(Question {
            name: data[..end].to_vec(),
            rtype: be16(data, end),
            class: be16(data, end + 2),
        }),
        _ => Verdict::Error(ErrorCode::FormErr),
    }
}

fn unsubscribe(data: &[u8]) -> Verdict {
    match data {
        [high, low] => Verdict::Unsubscribe(u16::from_be_bytes([*high, *low])),
        _ => Verdict::Abort,
    }
}

fn reconfirm(data: &[u8], start: usize) -> Verdict {
    let Some(end) = name::read(data, 0) else {
        return Verdict::Abort;
    };
    if data.len() < end + 4 || be16(data, end) == ANY || be16(data, end + 2) == ANY {
        return Verdict::Abort;
    }
    let place = |from: usize, length: usize| Place { start: start + from, length };
    Verdict::Reconfirm(Parts {
        name: place(0, end),
        rtype: place(end, 2),
        class: place(end + 2, 2),
        rdata: place(end + 4, data.len() - end - 4),
    })
}

/// The kind of a message by its bytes alone, as a number: 40 to 47, or 18 for one that is too long.
pub fn kind(message: &[u8]) -> u32 {
    if message.len() > MAX_MESSAGE {
        return 18;
    }
    match judge(message).verdict {
        Verdict::NotOurs => 40,
        Verdict::Abort => 41,
        Verdict::Error(ErrorCode::DsoTypeNi) => 43,
        Verdict::Error(_) => 42,
        Verdict::Keepalive => 44,
        Verdict::Subscribe(_) => 45,
        Verdict::Unsubscribe(_) => 46,
        Verdict::Reconfirm(_) => 47,
    }
}

/// The verdict on a message that a session receives: by bytes, then by the zone and the session's subscriptions.
pub fn judge_in_session(message: &[u8], zone: &[u8], live: &[Subscription]) -> Judgment {
    let mut judgment = judge(message);
    let id_in_use = || live.iter().any(|subscription| subscription.id == id(message));
    judgment.verdict = match judgment.verdict {
        Verdict::Keepalive | Verdict::Subscribe(_) if id_in_use() => Verdict::Abort,
        Verdict::Subscribe(question) => admit(question, zone, live),
        by_bytes => by_bytes,
    };
    judgment
}

fn admit(question: Question, zone: &[u8], live: &[Subscription]) -> Verdict {
    if !name::within(zone, &question.name) {
        Verdict::Error(ErrorCode::NotAuth)
    } else if live.iter().any(|subscription| subscription.question.same(&question)) {
        Verdict::Abort
    } else if live.len() >= MAX_SUBSCRIPTIONS {
        Verdict::Error(ErrorCode::ServFail)
    } else {
        Verdict::Subscribe(question)
    }
}
