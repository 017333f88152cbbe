//! Names and edits in the zone shop.example, written shortly.

use crate::craft::{dotted, edit};
use crate::zone::TTL_ONE;

pub const A: u16 = 1;
pub const CNAME: u16 = 5;
pub const TXT: u16 = 16;
pub const SRV: u16 = 33;
pub const ANY: u16 = 255;

/// A name written with dots, in the zone: `a` is a.shop.example; the empty text is the zone's own name.
pub fn at(text: &str) -> Vec<u8> {
    dotted(&format!("{text}.shop.example"))
}

pub fn put(text: &str, rtype: u16, class: u16, rdata: &[u8]) -> Vec<u8> {
    edit(&at(text), rtype, class, 120, rdata)
}

pub fn set(text: &str, rtype: u16, class: u16, ttl: u32, rdata: &[u8]) -> Vec<u8> {
    edit(&at(text), rtype, class, ttl, rdata)
}

pub fn delete(text: &str, rtype: u16, class: u16, rdata: &[u8]) -> Vec<u8> {
    edit(&at(text), rtype, class, TTL_ONE, rdata)
}
