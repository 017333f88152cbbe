//! Building names, messages and edits for cases; nothing here judges what it builds.

use crate::message::{KEEPALIVE, RECONFIRM, SUBSCRIBE, UNSUBSCRIBE};
use crate::random::Random;

/// The wire form of a name given by its labels; labels of any length up to 255 are taken.
pub fn name(labels: &[&[u8]]) -> Vec<u8> {
    let mut octets = Vec::new();
    for label in labels {
        octets.push(label.len() as u8);
        octets.extend_from_slice(label);
    }
    octets.push(0);
    octets
}

/// The wire form of a name written with dots, such as `a.shop.example`; the empty text is the root.
pub fn dotted(text: &str) -> Vec<u8> {
    name(&text.split('.').filter(|label| !label.is_empty()).map(str::as_bytes).collect::<Vec<_>>())
}

/// `below` with labels of `fill` in front, so that the whole has `total` octets; needs at least two octets of room or none.
pub fn stretched(below: &[u8], total: usize, fill: u8) -> Vec<u8> {
    let mut octets = below.to_vec();
    while octets.len() < total {
        let room = total - octets.len();
        let mut label = (room - 1).min(63);
        if room - 1 - label == 1 {
            label -= 1;
        }
        let mut longer = vec![label as u8];
        longer.resize(1 + label, fill);
        longer.extend_from_slice(&octets);
        octets = longer;
    }
    octets
}

/// The same octets with letters turned to either case at random.
pub fn respelled(octets: &[u8], random: &mut Random) -> Vec<u8> {
    octets
        .iter()
        .map(|octet| if octet.is_ascii_alphabetic() && random.once_in(2) { octet ^ 0x20 } else { *octet })
        .collect()
}

pub fn tlv(tlv_type: u16, data: &[u8]) -> Vec<u8> {
    let mut bytes = tlv_type.to_be_bytes().to_vec();
    bytes.extend_from_slice(&(data.len() as u16).to_be_bytes());
    bytes.extend_from_slice(data);
    bytes
}

/// A message: ID, the two flag bytes, four counts of zero, and what follows the header.
pub fn message(id: u16, flags: u16, rest: &[u8]) -> Vec<u8> {
    let mut bytes = id.to_be_bytes().to_vec();
    bytes.extend_from_slice(&flags.to_be_bytes());
    bytes.extend_from_slice(&[0; 8]);
    bytes.extend_from_slice(rest);
    bytes
}

/// Flags of a request: opcode 6, all else zero.
pub const REQUEST: u16 = 0x3000;

pub fn question(name: &[u8], rtype: u16, class: u16) -> Vec<u8> {
    let mut data = name.to_vec();
    data.extend_from_slice(&rtype.to_be_bytes());
    data.extend_from_slice(&class.to_be_bytes());
    data
}

pub fn subscribe(id: u16, name: &[u8], rtype: u16, class: u16) -> Vec<u8> {
    message(id, REQUEST, &tlv(SUBSCRIBE, &question(name, rtype, class)))
}

pub fn unsubscribe(id: u16) -> Vec<u8> {
    message(0, REQUEST, &tlv(UNSUBSCRIBE, &id.to_be_bytes()))
}

pub fn keepalive(id: u16, inactivity: u32, interval: u32) -> Vec<u8> {
    let mut data = inactivity.to_be_bytes().to_vec();
    data.extend_from_slice(&interval.to_be_bytes());
    message(id, REQUEST, &tlv(KEEPALIVE, &data))
}

pub fn reconfirm(name: &[u8], rtype: u16, class: u16, rdata: &[u8]) -> Vec<u8> {
    let mut data = question(name, rtype, class);
    data.extend_from_slice(rdata);
    message(0, REQUEST, &tlv(RECONFIRM, &data))
}

/// One edit of a batch, in the layout of a change notification.
pub fn edit(name: &[u8], rtype: u16, class: u16, ttl: u32, rdata: &[u8]) -> Vec<u8> {
    let mut bytes = question(name, rtype, class);
    bytes.extend_from_slice(&ttl.to_be_bytes());
    bytes.extend_from_slice(&(rdata.len() as u16).to_be_bytes());
    bytes.extend_from_slice(rdata);
    bytes
}
