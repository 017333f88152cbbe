//! Random batches that a zone's owner might well send.

use crate::craft::{edit, respelled};
use crate::pool::{self, Pool};
use crate::random::Random;
use crate::server::Server;
use crate::zone::{Record, TTL_ONE};

/// A batch of some edits; what it deletes or alters is mostly there.
pub fn sensible(server: &Server, pool: &Pool, random: &mut Random) -> Vec<u8> {
    let mut batch = Vec::new();
    let count = *random.pick(&[0, 1, 1, 1, 2, 2, 3, 4, 6, 8]);
    let crowded = server.records.len() > 12;
    for _ in 0..count {
        let choice = random.below(if crowded { 9 } else { 14 });
        if server.records.is_empty() || choice >= 8 {
            batch.extend(put(pool, random));
            continue;
        }
        let record = random.pick(&server.records).clone();
        match choice {
            0 => batch.extend(delete(&record, random)),
            1 => batch.extend(delete_like(server, random, |other| other.name.eq_ignore_ascii_case(&record.name))),
            2 => batch.extend(delete_like(server, random, |other| {
                other.name.eq_ignore_ascii_case(&record.name) && other.class == record.class
            })),
            3 => batch.extend(delete_like(server, random, |other| {
                other.name.eq_ignore_ascii_case(&record.name)
                    && (other.class, other.rtype) == (record.class, record.rtype)
            })),
            4 => batch.extend(alter(&record, record.ttl, random)),
            5 => batch.extend([delete(&record, random), alter(&record, record.ttl, random)].concat()),
            6 => batch.extend([delete(&record, random), alter(&record, pool::ttl(random), random)].concat()),
            _ => batch.extend(alter(&record, pool::ttl(random), random)),
        }
    }
    batch
}

fn put(pool: &Pool, random: &mut Random) -> Vec<u8> {
    let name = if random.once_in(4) { pool.any_name(random) } else { pool.name(random) };
    let ttl = match random.below(40) {
        0 => TTL_ONE,
        1 if random.once_in(4) => *random.pick(&[0x8000_0000, 0xffff_fffe, 0xffff_fffd]),
        _ => pool::ttl(random),
    };
    edit(&name, pool::record_type(random), pool::record_class(random), ttl, &pool::rdata(random))
}

pub fn alter(record: &Record, ttl: u32, random: &mut Random) -> Vec<u8> {
    edit(&respelled(&record.name, random), record.rtype, record.class, ttl, &record.rdata)
}

pub fn delete(record: &Record, random: &mut Random) -> Vec<u8> {
    alter(record, TTL_ONE, random)
}

/// Deletes of all records that are like one; at times one stays.
pub fn delete_like(server: &Server, random: &mut Random, like: impl Fn(&Record) -> bool) -> Vec<u8> {
    let mut chosen: Vec<&Record> = server.records.iter().filter(|record| like(record)).take(16).collect();
    if random.once_in(4) && !chosen.is_empty() {
        chosen.remove(random.below(chosen.len()));
    }
    if random.once_in(2) {
        chosen.reverse();
    }
    chosen.into_iter().flat_map(|record| delete(record, random)).collect()
}
