//! What several tests need: a server of the zone shop.example and short ways to call it.
#![allow(dead_code)]

use reference::call::{Call, Outcome};
use reference::craft::{dotted, edit};
use reference::notices::{read_push, Change};
use reference::server::Server;

pub const PUT: u32 = 120;
pub const DELETE: u32 = 0xffff_ffff;

pub const A: u16 = 1;
pub const CNAME: u16 = 5;
pub const TXT: u16 = 16;
pub const AAAA: u16 = 28;
pub const SRV: u16 = 33;
pub const ANY: u16 = 255;

pub fn server() -> Server {
    Server::start(&dotted("shop.example")).expect("a name")
}

pub fn open(server: &mut Server, time: u64) -> usize {
    server.call(&Call::Open { time }).opened.expect("a free session")
}

pub fn send(server: &mut Server, time: u64, session: u64, bytes: &[u8]) -> Outcome {
    server.call(&Call::Message { time, session, bytes: bytes.to_vec() })
}

pub fn batch(server: &mut Server, time: u64, edits: &[Vec<u8>]) -> Outcome {
    server.call(&Call::Batch { time, edits: edits.concat() })
}

pub fn tick(server: &mut Server, time: u64) -> [bool; 4] {
    let outcome = server.call(&Call::Tick { time });
    assert_eq!(outcome.answer.number(), 1);
    outcome.ended
}

/// An edit of a.shop.example in class 1.
pub fn a_edit(rtype: u16, ttl: u32, rdata: &[u8]) -> Vec<u8> {
    edit(&dotted("a.shop.example"), rtype, 1, ttl, rdata)
}

/// The list of the one PUSH written for session 0.
pub fn pushed(outcome: &Outcome) -> Vec<Change> {
    let bytes = &outcome.output[0];
    assert_eq!(usize::from(bytes[0]) << 8 | usize::from(bytes[1]), bytes.len() - 2, "one frame");
    read_push(&bytes[2..]).expect("a PUSH")
}

/// RCODE of the first frame written for a session.
pub fn rcode(outcome: &Outcome, session: usize) -> u8 {
    assert_eq!(outcome.answer.number(), 2);
    outcome.output[session][5] & 15
}
