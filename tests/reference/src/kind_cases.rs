//! Messages with the kind that their bytes alone give them.

use crate::craft::{self, dotted, message, name, question, stretched, tlv, REQUEST};
use crate::message::{kind, KEEPALIVE, MAX_MESSAGE, PUSH, RECONFIRM, SUBSCRIBE, UNSUBSCRIBE};
use crate::random::Random;

/// The fixed cases, then random ones until there are `count`, each with its kind.
pub fn cases(seed: u64, count: usize) -> Vec<(Vec<u8>, u32)> {
    let random = &mut Random::new(seed);
    let mut messages = Vec::new();
    sizes(&mut messages);
    flags(&mut messages, random);
    types(&mut messages, random);
    data_lengths(&mut messages);
    names(&mut messages);
    frames(&mut messages);
    fields(&mut messages);
    while messages.len() < count {
        messages.push(damaged(random));
    }
    messages.into_iter().map(|bytes| (bytes.clone(), kind(&bytes))).collect()
}

/// One good message of each kind that is ours.
fn good() -> Vec<Vec<u8>> {
    let name = dotted("a.shop.example");
    vec![
        craft::keepalive(0x1234, 15_000, 60_000),
        craft::subscribe(0x1234, &name, 1, 1),
        craft::unsubscribe(0x1234),
        craft::reconfirm(&name, 1, 1, &[192, 0, 2, 1]),
    ]
}

/// A message of so many bytes: the given one and a TLV that is ignored after it.
fn filled(mut bytes: Vec<u8>, total: usize) -> Vec<u8> {
    let room = total - bytes.len() - 4;
    bytes.extend_from_slice(&tlv(3, &vec![0x55; room]));
    bytes
}

fn sizes(messages: &mut Vec<Vec<u8>>) {
    messages.push(filled(craft::keepalive(7, 0, 0), MAX_MESSAGE));
    messages.push(filled(craft::keepalive(7, 0, 0), MAX_MESSAGE + 1));
    let longest = dotted("a.shop.example");
    let rest = MAX_MESSAGE - 16 - longest.len() - 4;
    messages.push(craft::reconfirm(&longest, 1, 1, &vec![9; rest]));
    messages.push(message(0, 0x2800, &vec![0; MAX_MESSAGE + 1 - 12]));
    for bytes in good() {
        for kept in 0..=bytes.len() {
            messages.push(bytes[..kept].to_vec());
        }
    }
}

/// Every first flag byte (QR, opcode, three bits of Z) and every second one (four bits of Z, RCODE).
fn flags(messages: &mut Vec<Vec<u8>>, random: &mut Random) {
    let good = good();
    for first in 0..=255u8 {
        let mut bytes = random.pick(&good).clone();
        bytes[2] = first;
        bytes[3] = random.byte();
        messages.push(bytes);
    }
    for second in 0..=255u8 {
        for first in [0x30, 0x37] {
            let mut bytes = random.pick(&good).clone();
            bytes[2] = first;
            bytes[3] = second;
            messages.push(bytes);
        }
    }
}

fn types(messages: &mut Vec<Vec<u8>>, random: &mut Random) {
    let edges =
        [0x00ff, 0x0100, 0x0101, 0x0102, 0x0140, 0x0142, 0x0143, 0x3fff, 0x4000, 0x4040, 0x4100, 0x4200, 0x4300];
    let high = [0x7fff, 0x8000, 0x8001, 0xf7ff, 0xf800, 0xfbff, 0xfc00, 0xff40, 0xfffe, 0xffff];
    for tlv_type in (0..=0x50).chain(edges).chain(high) {
        for id in [0, 1, 0xffff] {
            for data in [&[][..], &[0, 5], &[0; 8], &craft::question(&dotted("shop.example"), 1, 1)] {
                messages.push(message(id, REQUEST, &tlv(tlv_type, data)));
            }
            let later = [tlv(tlv_type, &[0, 1]), tlv(random.below(0x50) as u16, &[1; 3])].concat();
            messages.push(message(id, REQUEST, &later));
        }
    }
}

fn data_lengths(messages: &mut Vec<Vec<u8>>) {
    for tlv_type in [KEEPALIVE, SUBSCRIBE, PUSH, UNSUBSCRIBE, RECONFIRM, 2] {
        for length in (0..=24).chain([254, 255, 256, 257, 258, 259, 260, 300]) {
            for (id, fill) in [(0, 0), (9, 0), (0, 1), (9, 1)] {
                messages.push(message(id, REQUEST, &tlv(tlv_type, &vec![fill; length])));
            }
        }
    }
    for extra in 0..=6 {
        let mut data = dotted("a.shop.example");
        data.resize(data.len() + extra, 1);
        messages.push(message(3, REQUEST, &tlv(SUBSCRIBE, &data)));
        messages.push(message(0, REQUEST, &tlv(RECONFIRM, &data)));
    }
}

/// A SUBSCRIBE and a RECONFIRM of one name.
fn both(messages: &mut Vec<Vec<u8>>, name: &[u8]) {
    messages.push(craft::subscribe(0x00ff, name, 33, 1));
    messages.push(craft::reconfirm(name, 33, 1, &[]));
    messages.push(craft::reconfirm(name, 33, 1, &[0; 200]));
}

fn names(messages: &mut Vec<Vec<u8>>) {
    for total in [253, 254, 255, 256, 257, 258, 320] {
        both(messages, &stretched(&[0], total, b'n'));
        both(messages, &stretched(&dotted("shop.example"), total, b'q'));
        both(messages, &stretched(&[1, b'x', 0], total, 0));
    }
    for label in [1, 62, 63, 64, 65, 127, 128, 191, 192, 193, 255usize] {
        both(messages, &name(&[&vec![b'l'; label], b"shop", b"example"]));
        both(messages, &name(&[b"shop", &vec![b'l'; label]]));
        both(messages, &[label as u8, 0]);
    }
    for octets in [&[][..], &[0], &[0, 0], &[0xc0, 12], &[0xc0, 12, 0], &[1, b'a', 0xc0, 0x10], &[4, b's', b'h']] {
        both(messages, octets);
    }
}

/// TLVs that do not end at the message's end, and counts that are not zero.
fn frames(messages: &mut Vec<Vec<u8>>) {
    for mut bytes in good().into_iter().flat_map(|bytes| [bytes.clone(), filled(bytes, 60)]) {
        for id in [0u16, 0x0102] {
            bytes[..2].copy_from_slice(&id.to_be_bytes());
            for wrong in [-0x0100, -2, -1, 1, 2, 3, 4, 5, 0x0100, 0x7f00] {
                let mut other = bytes.clone();
                let length = (i32::from(other[14]) << 8 | i32::from(other[15])) + wrong;
                other[14..16].copy_from_slice(&(length as u16).to_be_bytes());
                messages.push(other);
            }
            for extra in 1..=5 {
                let mut other = bytes.clone();
                other.resize(other.len() + extra, 0);
                messages.push(other);
            }
            for at in 4..12 {
                let mut other = bytes.clone();
                other[at] = if at % 2 == 1 { 1 } else { 0x80 };
                messages.push(other);
            }
        }
    }
}

/// Types and classes around 0 and 255 in SUBSCRIBE and RECONFIRM.
fn fields(messages: &mut Vec<Vec<u8>>) {
    let name = dotted("a.shop.example");
    for value in [0, 1, 5, 254, 255, 256, 0x01ff, 0x0ff0, 0xff00, 0xffff] {
        for other in [1, 255] {
            for (rtype, class) in [(value, other), (other, value)] {
                messages.push(craft::subscribe(2, &name, rtype, class));
                messages.push(craft::reconfirm(&name, rtype, class, &[1]));
            }
        }
    }
    messages.push(message(2, REQUEST, &tlv(SUBSCRIBE, &question(&[0], 1, 1))));
}

/// A good message with some damage, or bytes that only begin like one.
fn damaged(random: &mut Random) -> Vec<u8> {
    let mut bytes = random.pick(&good()).clone();
    if random.once_in(4) {
        let length = random.below(40);
        bytes = message(random.below(3) as u16, REQUEST, &random.bytes(length));
    }
    if random.once_in(4) {
        bytes = filled(bytes, 60 + random.below(20));
    }
    for _ in 0..random.below(3) {
        let at = random.below(bytes.len());
        bytes[at] ^= 1 << random.below(8);
    }
    if random.once_in(3) {
        let at = random.below(bytes.len());
        bytes[at] = *random.pick(&[0, 1, 2, 63, 64, 0x40, 0x41, 0x42, 0x43, 192, 255]);
    }
    if random.once_in(6) {
        bytes.truncate(random.below(bytes.len() + 1));
    }
    bytes
}
