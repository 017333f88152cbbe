//! Random runs over few names, types, classes and RDATA, so that records meet, leave together and leave apart.

use crate::craft::{edit, respelled};
use crate::edits::{alter, delete, delete_like};
use crate::message::ANY;
use crate::pool::{below, Pool};
use crate::push_cases::{Bench, LONGEST_RUN, SHORTEST_RUN};
use crate::random::Random;
use crate::zone::{Record, MAX_EDITS, MAX_RECORDS};

/// What one run draws from.
struct Draw {
    names: Vec<Vec<u8>>,
    types: Vec<u16>,
    classes: Vec<u16>,
    /// Above so many records the run deletes more than it puts.
    crowd: usize,
    /// How many different short RDATA there are, the empty one aside.
    rdata: usize,
}

impl Draw {
    fn new(zone: &[u8], random: &mut Random) -> Draw {
        let mut names = vec![zone.to_vec(), below(zone, &[b"a"]), below(zone, &[b"*"]), below(zone, &[b"a", b"a"])];
        names.truncate(1 + random.below(4));
        let other = random.pick(&Pool::new(zone).inside).clone();
        if random.once_in(6) && !names.contains(&other) {
            names.push(other);
        }
        let types = [&[1, 16][..], &[1, 5], &[1, 16, 5, 33], &[1, 16, 33], &[254, 256, 0xffff], &[28]];
        let classes = [&[1][..], &[1, 3], &[1, 3, 4], &[1, 1, 1, 3, 254, 256]];
        let (types, classes) = (random.pick(&types).to_vec(), random.pick(&classes).to_vec());
        Draw { names, types, classes, crowd: 2 + random.below(9), rdata: 1 + random.below(3) }
    }

    fn name(&self, random: &mut Random) -> Vec<u8> {
        let name = random.pick(&self.names);
        if random.once_in(2) {
            respelled(name, random)
        } else {
            name.clone()
        }
    }

    fn rdata(&self, random: &mut Random) -> Vec<u8> {
        match random.below(60) {
            0 => vec![7; 128],
            1 => vec![7; 127],
            2 => b"Abc".to_vec(),
            3 => b"abc".to_vec(),
            _ => match random.below(self.rdata + 1) {
                0 => Vec::new(),
                other => vec![other as u8],
            },
        }
    }

    fn put(&self, random: &mut Random) -> Vec<u8> {
        let (rtype, class) = (*random.pick(&self.types), *random.pick(&self.classes));
        edit(&self.name(random), rtype, class, ttl(random), &self.rdata(random))
    }
}

fn ttl(random: &mut Random) -> u32 {
    *random.pick(&[0, 1, 120, 120, 120, 0x0001_0203, 0x7fff_ffff])
}

/// A run of ten to sixty lines.
pub fn run(bench: &mut Bench, random: &mut Random) {
    bench.fresh();
    let mut draw = Draw::new(&bench.server.zone.clone(), random);
    let lines = SHORTEST_RUN + random.below(LONGEST_RUN - SHORTEST_RUN);
    let eager = *random.pick(&[2, 12, 12, 12, 40]);
    if random.once_in(12) {
        fill(bench, &draw, random);
        draw.crowd = if random.once_in(2) { MAX_RECORDS } else { draw.crowd };
    }
    if random.once_in(2) {
        for (number, name) in draw.names.iter().enumerate() {
            bench.subscribe(number as u16 + 1, name, ANY, ANY);
        }
    } else if !random.once_in(10) {
        subscribe(bench, &draw, random);
    }
    while bench.run < lines {
        step(bench, &draw, eager, random);
    }
}

/// One more line, or two; a subscription is tried once in `eager` lines.
fn step(bench: &mut Bench, draw: &Draw, eager: usize, random: &mut Random) {
    if random.once_in(eager) {
        return subscribe(bench, draw, random);
    }
    match random.below(30) {
        0 if !bench.live().is_empty() => {
            let id = random.pick(bench.live()).id;
            bench.ask_again(id);
        }
        1 if !bench.live().is_empty() => {
            let id = random.pick(bench.live()).id;
            bench.unsubscribe(id);
        }
        2 => damaged(bench, draw, random),
        _ => {
            let edits = batch(bench, draw, random);
            bench.edits(&edits);
        }
    }
}

/// A subscription, where the drawn one can be asked.
fn subscribe(bench: &mut Bench, draw: &Draw, random: &mut Random) {
    let id = *random.pick(&[1, 2, 3, 4, 5, 6, 7, 8, 0x00ff, 0x0100, 0x0101, 0x7fff, 0x8000, 0xfffe, 0xffff]);
    let rtype = if random.once_in(2) { ANY } else { *random.pick(&[&draw.types[..], &[0, 5]].concat()) };
    let class = if random.once_in(2) { ANY } else { *random.pick(&[&draw.classes[..], &[0, 1]].concat()) };
    let name = draw.name(random);
    if bench.may_ask(id, &name, rtype, class) {
        bench.subscribe(id, &name, rtype, class);
    }
}

/// Edits one after the other; what they delete or alter is mostly there.
fn batch(bench: &Bench, draw: &Draw, random: &mut Random) -> Vec<Vec<u8>> {
    let mut edits = Vec::new();
    let clears = random.once_in(4) && !bench.records().is_empty();
    if clears {
        edits.push(clear(bench, random));
    }
    for _ in 0..*random.pick(if clears { &[0, 0, 0, 1] } else { &[0, 1, 1, 1, 2, 2, 3, 4] }) {
        let puts = if bench.records().len() > draw.crowd { 7 } else { 18 };
        let choice = random.below(puts);
        if bench.records().is_empty() || choice >= 6 {
            edits.push(draw.put(random));
            continue;
        }
        let record = random.pick(bench.records()).clone();
        match choice {
            0 | 1 => edits.push(delete(&record, random)),
            2 => edits.push(alter(&record, record.ttl, random)),
            3 => edits.extend([delete(&record, random), alter(&record, record.ttl, random)]),
            4 => edits.extend([delete(&record, random), alter(&record, ttl(random), random)]),
            _ => edits.push(alter(&record, ttl(random), random)),
        }
    }
    edits
}

/// Deletes the records of a name, or those of one class, or an RRset; at times one stays.
fn clear(bench: &Bench, random: &mut Random) -> Vec<u8> {
    let first = random.pick(bench.records()).clone();
    let width = *random.pick(&[0, 1, 1, 2, 2, 2]);
    let like = |other: &Record| {
        other.name.eq_ignore_ascii_case(&first.name)
            && (width > 1 || other.class == first.class)
            && (width > 0 || other.rtype == first.rtype)
    };
    delete_like(&bench.server, random, like)
}

/// A batch with an octet changed, or cut short, or with octets after it.
fn damaged(bench: &mut Bench, draw: &Draw, random: &mut Random) {
    let mut bytes = [batch(bench, draw, random).concat(), draw.put(random)].concat();
    match random.below(3) {
        0 => bytes.truncate(random.below(bytes.len())),
        1 => bytes.extend(vec![0; 1 + random.below(12)]),
        _ => {
            let at = random.below(bytes.len());
            bytes[at] = *random.pick(&[0, 1, 63, 64, 128, 192, 255]);
        }
    }
    bench.batch(&bytes);
}

/// Fills the table with small records, nearly or to the last place.
fn fill(bench: &mut Bench, draw: &Draw, random: &mut Random) {
    let count = MAX_RECORDS - random.below(3);
    let one = |number: usize| edit(&draw.names[0], draw.types[0], draw.classes[0], 120, &[number as u8]);
    let all: Vec<Vec<u8>> = (0..count).map(one).collect();
    all.chunks(MAX_EDITS).for_each(|edits| {
        bench.edits(edits);
    });
}
