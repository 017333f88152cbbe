//! What a replay script and its output reach, counted from their lines; and what of all that a line can reach is missing.
//!
//! Answers 12, 18 and 20 can't be reached by a line: the program lends room enough, a line has fewer than 65,536 bytes of
//! message, and the zone's name is one.

use crate::call::{Call, SESSIONS};
use crate::craft::dotted;
use crate::hex;
use crate::message::{self, ErrorCode};
use crate::reading::{self, Frame, Notice};
use crate::replay::{read_line, write_outcome, MAX_LINE, UNREADABLE, ZONE};
use crate::server::{Server, Session};
use std::collections::BTreeMap;

/// Everything that has to be reached.
const WANTED: [&str; 80] = [
    "open 1",
    "open 11",
    "open 13",
    "close 1",
    "close 10",
    "close 11",
    "msg 1",
    "msg 2",
    "msg 3",
    "msg 4",
    "msg 5",
    "msg 10",
    "msg 11",
    "batch 1",
    "batch 2",
    "batch 11",
    "batch 14",
    "batch 15",
    "batch 16",
    "batch 17",
    "tick 1",
    "tick 4",
    "tick 11",
    "? 19",
    "reply NOERROR",
    "reply FORMERR",
    "reply SERVFAIL",
    "reply NOTAUTH",
    "reply DSOTYPENI",
    "keepalive reply",
    "reply with a PUSH behind it",
    "add",
    "removal of one record",
    "removal of an RRset",
    "removal of all types in a class",
    "removal of all classes",
    "several notices in a PUSH",
    "a batch with lines for several sessions",
    "a tick with lines for several sessions",
    "session number used again",
    "subscription's place used again",
    "record's place used again",
    "sixteen subscriptions",
    "forty records",
    "inactivity one before its limit",
    "inactivity at its limit",
    "inactivity at its limit after a Keepalive",
    "keepalive 30000 one before its limit",
    "keepalive 30000 at its limit",
    "keepalive 120000 one before its limit",
    "keepalive 120000 at its limit",
    "time moves",
    "time stands still",
    "time goes back by one",
    "time of 33 bits",
    "time of 64 bits",
    "time 18446744073709551614",
    "time 18446744073709551615",
    "message without bytes",
    "batch without bytes",
    "line of 32768 bytes, read",
    "line of 32769 bytes",
    "unreadable: empty",
    "unreadable: no tab",
    "unreadable: verb",
    "unreadable: too few fields",
    "unreadable: too many fields",
    "unreadable: empty number",
    "unreadable: leading zero",
    "unreadable: no digit in a number",
    "unreadable: number over 64 bits",
    "unreadable: odd digits",
    "unreadable: capital digit",
    "unreadable: no digit in hex",
    "unreadable: CR",
    "unreadable: NUL",
    "unreadable: octet over 127",
    "unreadable: space",
    "last LF missing",
    "5000 lines",
];

/// How often each thing is reached.
#[derive(Default)]
pub struct Reach {
    counts: BTreeMap<&'static str, usize>,
    lines: usize,
    taken: [bool; SESSIONS],
    most_records: usize,
    most_subscriptions: [usize; SESSIONS],
}

impl Reach {
    fn note(&mut self, what: &str) {
        if let Some(known) = WANTED.iter().find(|known| **known == what) {
            *self.counts.entry(known).or_default() += 1;
        }
    }

    fn note_if(&mut self, is_reached: bool, what: &str) {
        if is_reached {
            self.note(what);
        }
    }

    /// A line for each thing, and whether all are reached.
    pub fn report(&self) -> (String, bool) {
        let count = |what: &str| self.counts.get(what).copied().unwrap_or(0);
        let text = WANTED.iter().map(|what| match count(what) {
            0 => format!("MISSING\t{what}\n"),
            times => format!("{times}\t{what}\n"),
        });
        (text.collect(), WANTED.iter().all(|what| count(what) > 0))
    }

    fn readable(&mut self, line: &[u8], call: &Call, before: &Server, server: &Server, printed: &str) {
        let answers: Vec<Vec<&str>> = printed.lines().map(|line| line.split('\t').collect()).collect();
        for fields in &answers {
            self.note(&format!("{} {}", fields[0], fields[1]));
            self.bytes(call, fields[3]);
        }
        self.note_if(answers.len() > 1 && answers[0][0] == "batch", "a batch with lines for several sessions");
        self.note_if(answers.len() > 1 && answers[0][0] == "tick", "a tick with lines for several sessions");
        self.note_if(line.len() == MAX_LINE, "line of 32768 bytes, read");
        self.note_if(line.starts_with(b"msg") && line.ends_with(b"\t"), "message without bytes");
        self.note_if(line.starts_with(b"batch") && line.ends_with(b"\t"), "batch without bytes");
        self.time(call, before, answers[0][1] == "11");
        if answers[0][1] != "11" {
            self.places(call, before, server, answers[0][2]);
        }
    }

    /// What the bytes of an output line hold.
    fn bytes(&mut self, call: &Call, field: &str) {
        let Some(bytes) = hex::read(field.as_bytes()).filter(|bytes| !bytes.is_empty()) else { return };
        let frames = reading::frames(&bytes).unwrap_or_default();
        self.note_if(matches!(call, Call::Message { .. }) && frames.len() > 1, "reply with a PUSH behind it");
        for frame in frames {
            match frame {
                Frame::Reply(reply) => {
                    self.note(match reply.rcode {
                        0 => "reply NOERROR",
                        code if code == ErrorCode::FormErr as u8 => "reply FORMERR",
                        code if code == ErrorCode::ServFail as u8 => "reply SERVFAIL",
                        code if code == ErrorCode::NotAuth as u8 => "reply NOTAUTH",
                        code if code == ErrorCode::DsoTypeNi as u8 => "reply DSOTYPENI",
                        _ => "another reply",
                    });
                    self.note_if(reply.tlvs.iter().any(|tlv| tlv.0 == message::KEEPALIVE), "keepalive reply");
                }
                Frame::Push(notices) => {
                    self.note_if(notices.len() > 1, "several notices in a PUSH");
                    notices.iter().for_each(|notice| self.note(kind_of(notice)));
                }
            }
        }
    }

    fn time(&mut self, call: &Call, before: &Server, is_back: bool) {
        let (time, latest) = (call.time(), before.latest);
        self.note_if(is_back && time + 1 == latest, "time goes back by one");
        if !is_back {
            self.note_if(time > latest, "time moves");
            self.note_if(time == latest && time > 0, "time stands still");
            self.note_if(time >> 32 > 0, "time of 33 bits");
            self.note_if(time >> 63 > 0, "time of 64 bits");
            self.note_if(time == u64::MAX - 1, "time 18446744073709551614");
            self.note_if(time == u64::MAX, "time 18446744073709551615");
        }
    }

    /// Numbers and places that are used again, tables that are full, and clocks at their limits.
    fn places(&mut self, call: &Call, before: &Server, server: &Server, opened: &str) {
        if let (Call::Open { .. }, Ok(session)) = (call, opened.parse::<usize>()) {
            self.note_if(self.taken[session], "session number used again");
            self.taken[session] = true;
            self.most_subscriptions[session] = 0;
        }
        let (old, new) = (before.records.len(), server.records.len());
        self.note_if(new > old && old < self.most_records, "record's place used again");
        self.note_if(new == 40, "forty records");
        self.most_records = self.most_records.max(new);
        for session in 0..SESSIONS {
            let held = |server: &Server| server.sessions[session].as_ref().map_or(0, |live| live.subscriptions.len());
            let (old, new) = (held(before), held(server));
            let most = self.most_subscriptions[session];
            self.note_if(new > old && old < most, "subscription's place used again");
            self.note_if(new == 16, "sixteen subscriptions");
            self.most_subscriptions[session] = most.max(new);
        }
        if let Call::Tick { time } = call {
            let live: Vec<Session> = before.sessions.iter().flatten().cloned().collect();
            live.iter().for_each(|session| self.clocks(*time, session));
        }
    }

    fn clocks(&mut self, time: u64, session: &Session) {
        let clocks = &session.clocks;
        let (idle, silent) = (time - clocks.inactivity_start, time - clocks.keepalive_start);
        let limit = 2 * u64::from(clocks.interval);
        if session.subscriptions.is_empty() && silent < limit.max(30_001) {
            self.note_if(idle == 29_999, "inactivity one before its limit");
            self.note_if(idle == 30_000, "inactivity at its limit");
            self.note_if(idle == 30_000 && silent < 30_000, "inactivity at its limit after a Keepalive");
        }
        if !session.subscriptions.is_empty() {
            self.note_if(silent + 1 == limit, &format!("keepalive {limit} one before its limit"));
            self.note_if(silent == limit, &format!("keepalive {limit} at its limit"));
        }
    }

    /// Why a line is unreadable, by its bytes.
    fn unreadable(&mut self, line: &[u8]) {
        self.note("? 19");
        self.note_if(line.len() == MAX_LINE + 1, "line of 32769 bytes");
        self.note_if(line.is_empty(), "unreadable: empty");
        self.note_if(!line.is_empty() && !line.contains(&b'\t'), "unreadable: no tab");
        for (octet, what) in [(b'\r', "CR"), (0, "NUL"), (b' ', "space")] {
            self.note_if(line.contains(&octet), &format!("unreadable: {what}"));
        }
        self.note_if(line.iter().any(|octet| *octet > 127), "unreadable: octet over 127");
        let fields: Vec<&[u8]> = line.split(|octet| *octet == b'\t').collect();
        let Some((numbers, last)) = shape(fields[0]) else {
            return self.note_if(line.contains(&b'\t'), "unreadable: verb");
        };
        let wanted = 1 + numbers + usize::from(last);
        self.note_if(fields.len() < wanted, "unreadable: too few fields");
        self.note_if(fields.len() > wanted, "unreadable: too many fields");
        if fields.len() == wanted && line.len() <= MAX_LINE {
            fields[1..=numbers].iter().for_each(|field| self.number(field));
            if last {
                self.digits(fields[wanted - 1]);
            }
        }
    }

    fn number(&mut self, field: &[u8]) {
        let is_decimal = field.iter().all(u8::is_ascii_digit);
        self.note_if(field.is_empty(), "unreadable: empty number");
        self.note_if(field.len() > 1 && field[0] == b'0', "unreadable: leading zero");
        self.note_if(!is_decimal, "unreadable: no digit in a number");
        let text = String::from_utf8_lossy(field);
        let is_large = is_decimal && !field.is_empty() && field[0] != b'0' && text.parse::<u64>().is_err();
        self.note_if(is_large, "unreadable: number over 64 bits");
    }

    fn digits(&mut self, field: &[u8]) {
        let lower = |octet: &u8| octet.is_ascii_digit() || (b'a'..=b'f').contains(octet);
        let is_hex = field.iter().all(lower);
        self.note_if(is_hex && field.len() % 2 == 1, "unreadable: odd digits");
        self.note_if(field.iter().any(|octet| (b'A'..=b'F').contains(octet)), "unreadable: capital digit");
        self.note_if(field.iter().any(|octet| !octet.is_ascii_hexdigit()), "unreadable: no digit in hex");
    }
}

/// How many numbers follow a verb, and whether hex does.
fn shape(verb: &[u8]) -> Option<(usize, bool)> {
    match verb {
        b"open" | b"tick" => Some((1, false)),
        b"close" => Some((2, false)),
        b"msg" => Some((2, true)),
        b"batch" => Some((1, true)),
        _ => None,
    }
}

fn kind_of(notice: &Notice) -> &'static str {
    match (notice.ttl, notice.rtype, notice.class) {
        (0..=0x7fff_ffff, _, _) => "add",
        (0xffff_ffff, _, _) => "removal of one record",
        (_, _, 255) => "removal of all classes",
        (_, 255, _) => "removal of all types in a class",
        _ => "removal of an RRset",
    }
}

/// Counts what a script reaches, or says where its output is not the one expected.
pub fn reach(input: &[u8], output: &[u8]) -> Result<Reach, String> {
    let mut server = Server::start(&dotted(ZONE)).map_err(|_| "the zone's name is no name".to_string())?;
    let mut reach = Reach::default();
    let mut rest = output;
    let (whole, is_open) = match input.strip_suffix(b"\n") {
        Some(whole) => (whole, false),
        None => (input, true),
    };
    for line in whole.split(|octet| *octet == b'\n') {
        reach.lines += 1;
        let before = server.clone();
        let call = read_line(line);
        let printed = match &call {
            Some(call) => write_outcome(call, &server.call(call)),
            None => UNREADABLE.to_string(),
        };
        rest = rest.strip_prefix(printed.as_bytes()).ok_or(format!("line {}: the output differs", reach.lines))?;
        match &call {
            Some(call) => reach.readable(line, call, &before, &server, &printed),
            None => reach.unreadable(line),
        }
    }
    if !rest.is_empty() {
        return Err("the output goes on after the last line's".to_string());
    }
    reach.note_if(is_open, "last LF missing");
    reach.note_if(reach.lines >= 5_000, "5000 lines");
    Ok(reach)
}
