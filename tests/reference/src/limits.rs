//! Messages and batches at the limits and one past them.

use crate::craft::{self, edit, stretched};
use crate::message::{Question, Subscription, MAX_SUBSCRIPTIONS};
use crate::pool::below;
use crate::random::Random;
use crate::server::{Server, Session};
use crate::zone::{MAX_EDITS, MAX_RECORDS, TTL_ONE};

/// A message at a limit: most often one more subscription, so that the seventeenth comes.
pub fn request(session: Option<&Session>, zone: &[u8], random: &mut Random) -> Vec<u8> {
    let live: &[Subscription] = session.map_or(&[], |session| &session.subscriptions);
    let id = 1_000 + random.below(60_000) as u16;
    match random.below(40) {
        0..=2 => craft::subscribe(id, &edge_name(zone, random), 255, 255),
        3 => craft::reconfirm(&edge_name(zone, random), 1, 1, &vec![3; *random.pick(&[0, 128, 129, 400])]),
        4 | 5 => craft::message(id, craft::REQUEST, &craft::tlv(1, &vec![0; *random.pick(&[7, 8, 9])])),
        6 => craft::message(0, craft::REQUEST, &craft::tlv(0x42, &vec![0; *random.pick(&[1, 2, 3])])),
        7..=9 if live.len() >= MAX_SUBSCRIPTIONS => craft::unsubscribe(random.pick(live).id),
        _ => another(live, id, zone, random),
    }
}

/// A SUBSCRIBE for what no live subscription asks.
pub fn another(live: &[Subscription], id: u16, zone: &[u8], random: &mut Random) -> Vec<u8> {
    loop {
        let name = below(zone, &[b"n", &[b'0' + random.below(10) as u8]]);
        let question = Question { name, rtype: random.below(3) as u16, class: 1 };
        if !live.iter().any(|subscription| subscription.question.same(&question)) {
            return craft::subscribe(id, &question.name, question.rtype, question.class);
        }
    }
}

/// A name with a label or a whole length at its limit or past it.
fn edge_name(zone: &[u8], random: &mut Random) -> Vec<u8> {
    let label = *random.pick(&[62, 63, 64, 65, 192]);
    if random.once_in(2) {
        return below(zone, &[&vec![b'e'; label]]);
    }
    let total = *random.pick(&[254, 255, 256, 257]);
    stretched(zone, total, b'u')
}

/// A batch at a limit; from a nearly full table most often one that fills it.
pub fn batch(server: &Server, random: &mut Random) -> Vec<u8> {
    let room = MAX_RECORDS - server.records.len();
    let zone = &server.zone;
    match random.below(12) {
        0 => puts(zone, MAX_EDITS + random.below(2), random),
        1 => puts(zone, room.min(MAX_EDITS) + 1, random),
        2 => [puts(zone, room.min(MAX_EDITS), random), garbage(random)].concat(),
        3 => [puts(zone, MAX_EDITS, random), garbage(random)].concat(),
        4 => edit(&edge_name(zone, random), 1, 1, 120, &[1]),
        5 => edit(&below(zone, &[b"r"]), 1, 1, 120, &vec![8; *random.pick(&[127, 128, 129, 300])]),
        6 => edge_values(zone, random),
        7 => deletes(server, MAX_EDITS),
        8 => [deletes(server, 1), puts(zone, 1, random)].concat(),
        9 => [puts(zone, 1, random), edge_values(zone, random), garbage(random)].concat(),
        _ => puts(zone, room.min(MAX_EDITS), random),
    }
}

/// Puts of records that are most likely new.
fn puts(zone: &[u8], count: usize, random: &mut Random) -> Vec<u8> {
    let size = *random.pick(&[0, 4, 4, 128]);
    let one = |random: &mut Random| {
        let mut rdata = random.bytes(4);
        rdata.resize(4.max(size), 6);
        let long = zone.len() < 254 && random.once_in(3);
        let name =
            if long { stretched(zone, 255, b'n') } else { below(zone, &[b"n", &[b'0' + random.below(10) as u8]]) };
        edit(&name, 1 + random.below(2) as u16, 1, 120, &rdata)
    };
    (0..count).flat_map(|_| one(random)).collect()
}

fn deletes(server: &Server, count: usize) -> Vec<u8> {
    server
        .records
        .iter()
        .take(count)
        .flat_map(|record| edit(&record.name, record.rtype, record.class, TTL_ONE, &record.rdata))
        .collect()
}

/// An edit with values around those that are not allowed.
fn edge_values(zone: &[u8], random: &mut Random) -> Vec<u8> {
    let ttl = *random.pick(&[0x7fff_ffff, 0x8000_0000, 0xffff_fffd, 0xffff_fffe, 0xffff_ffff, 120]);
    let field = |random: &mut Random| {
        if random.once_in(3) {
            *random.pick(&[0, 254, 255, 256, 0xffff])
        } else {
            1
        }
    };
    let (rtype, class) = (field(random), field(random));
    edit(&below(zone, &[b"v"]), rtype, class, ttl, &[1, 2])
}

fn garbage(random: &mut Random) -> Vec<u8> {
    let length = 1 + random.below(20);
    random.bytes(length)
}
