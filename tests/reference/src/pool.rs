//! The names, types, classes and RDATA that random runs draw from: few, so that they meet often.

use crate::craft::{name, respelled, stretched};
use crate::random::Random;

/// Names in and around one zone.
pub struct Pool {
    /// Names at or below the zone; the first few are drawn most.
    pub inside: Vec<Vec<u8>>,
    pub outside: Vec<Vec<u8>>,
}

/// A whole name with labels put in front; the result need not be a name.
pub fn below(zone: &[u8], labels: &[&[u8]]) -> Vec<u8> {
    let mut octets = name(labels);
    octets.pop();
    octets.extend_from_slice(zone);
    octets
}

impl Pool {
    pub fn new(zone: &[u8]) -> Pool {
        let fits = |octets: &Vec<u8>| octets.len() <= 255;
        let mut inside: Vec<Vec<u8>> =
            [&[&b"a"[..]][..], &[b"b"], &[], &[b"*"], &[b"b", b"a"], &[b"_http", b"_tcp"], &[b"\x01a"], &[b"a0"]]
                .iter()
                .map(|labels| below(zone, labels))
                .chain([below(zone, &[&[b'n'; 63]]), stretched(zone, 254, b'w'), stretched(zone, 255, b'v')])
                .filter(fits)
                .collect();
        if inside.is_empty() {
            inside.push(zone.to_vec());
        }
        let mut outside = vec![name(&[b"a", b"elsewhere"]), name(&[b"shop", b"example", b"org"])];
        if zone.len() > 1 {
            outside.push(vec![0]);
            let mut glued = zone.to_vec();
            glued.insert(1, b'x');
            glued[0] += 1;
            outside.push(glued);
            let parent = 1 + usize::from(zone[0]);
            outside.push(zone[parent..].to_vec());
        }
        Pool { inside, outside }
    }

    /// A name, mostly one of the first few, in any spelling.
    pub fn name(&self, random: &mut Random) -> Vec<u8> {
        let few = self.inside.len().min(3);
        let among = if random.once_in(5) { self.inside.len() } else { few };
        let octets = &self.inside[random.below(among)];
        if random.once_in(3) {
            respelled(octets, random)
        } else {
            octets.clone()
        }
    }

    /// A name that is mostly inside.
    pub fn any_name(&self, random: &mut Random) -> Vec<u8> {
        if random.once_in(12) {
            random.pick(&self.outside).clone()
        } else {
            self.name(random)
        }
    }
}

pub fn record_type(random: &mut Random) -> u16 {
    *random.pick(&[1, 1, 16, 16, 28, 33, 5, 0xffff])
}

pub fn asked_type(random: &mut Random) -> u16 {
    if random.once_in(2) {
        255
    } else {
        *random.pick(&[1, 16, 28, 33, 5, 0, 0xffff])
    }
}

pub fn record_class(random: &mut Random) -> u16 {
    *random.pick(&[1, 1, 1, 3, 254])
}

pub fn asked_class(random: &mut Random) -> u16 {
    *random.pick(&[1, 1, 1, 3, 255, 255, 255, 0])
}

pub fn ttl(random: &mut Random) -> u32 {
    *random.pick(&[0, 60, 120, 120, 120, 4_500, 0x7fff_ffff])
}

pub fn rdata(random: &mut Random) -> Vec<u8> {
    match random.below(8) {
        0 => Vec::new(),
        1 => vec![random.byte(); 128],
        2 => vec![0; 127],
        _ => vec![192, 0, 2, random.below(4) as u8],
    }
}
