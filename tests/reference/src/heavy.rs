//! Lines that fill the store with the longest records and ask for them, so that the longest PUSHes come.

use crate::call::Call;
use crate::craft::{self, edit, stretched};
use crate::random::Random;
use crate::replay::write_line;
use crate::server::Server;
use crate::zone::{Record, MAX_EDITS, MAX_RDATA, MAX_RECORDS, TTL_ONE};

#[derive(Clone, Copy, Debug, PartialEq, Eq)]
pub enum Step {
    /// Delete as many records as a batch can.
    Clear,
    /// Put as many records of the longest name and RDATA as a batch and the store can take.
    Fill,
    /// Subscribe to them.
    Ask,
    /// Give as many records as a batch can another TTL.
    Retouch,
}

/// From any store to a full one of the longest records, asked for, altered, and gone again; the last comes first.
pub const STEPS: [Step; 9] =
    [Step::Clear, Step::Clear, Step::Retouch, Step::Ask, Step::Fill, Step::Ask, Step::Fill, Step::Clear, Step::Clear];

pub fn line(step: Step, server: &Server, random: &mut Random) -> Vec<u8> {
    write_line(&call(step, server, random)).into_bytes()
}

pub fn call(step: Step, server: &Server, random: &mut Random) -> Call {
    let time = server.latest;
    match step {
        Step::Clear => Call::Batch { time, edits: again(&server.records, |_| TTL_ONE) },
        Step::Fill => Call::Batch { time, edits: fill(server, random) },
        Step::Ask => {
            let open = server.sessions.iter().position(Option::is_some).unwrap_or(0);
            let session = if random.once_in(2) { open } else { random.below(4) } as u64;
            let id = 40_000 + random.below(20_000) as u16;
            let rtype = *random.pick(&[16, 255]);
            Call::Message { time, session, bytes: craft::subscribe(id, &longest(server), rtype, 255) }
        }
        Step::Retouch => Call::Batch { time, edits: again(&server.records, |ttl| (ttl + 1) & 0x7fff_ffff) },
    }
}

/// A name of 255 octets in the zone.
fn longest(server: &Server) -> Vec<u8> {
    stretched(&server.zone, 255, b'v')
}

fn fill(server: &Server, random: &mut Random) -> Vec<u8> {
    let (name, room) = (longest(server), MAX_RECORDS - server.records.len());
    let one = |_| {
        let rdata = [random.bytes(8), vec![b'k'; MAX_RDATA - 8]].concat();
        edit(&name, 16, 1, 120, &rdata)
    };
    (0..room.min(MAX_EDITS)).flat_map(one).collect()
}

/// The first records once more, with other TTLs.
fn again(records: &[Record], ttl: impl Fn(u32) -> u32) -> Vec<u8> {
    let one = |record: &Record| edit(&record.name, record.rtype, record.class, ttl(record.ttl), &record.rdata);
    records.iter().take(MAX_EDITS).flat_map(one).collect()
}
