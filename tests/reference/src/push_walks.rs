//! Walks over all sets of five records, asked in several ways.

use crate::craft::{edit, respelled};
use crate::push_cases::Bench;
use crate::push_edits::{at, A, ANY, CNAME, SRV, TXT};
use crate::random::Random;
use crate::zone::TTL_ONE;

/// A record by its name in the zone, type, class and RDATA.
type Row = (&'static str, u16, u16, &'static [u8]);
/// A question by its name in the zone, type and class.
type Ask = (&'static str, u16, u16);

/// One name in two classes with an alias, then two names.
const ONE_NAME: [Row; 5] =
    [("", A, 1, &[1]), ("", A, 1, &[2]), ("", TXT, 1, &[]), ("", A, 3, &[1]), ("", CNAME, 1, &[3])];
const TWO_NAMES: [Row; 5] =
    [("", A, 1, &[]), ("", TXT, 3, &[]), ("b", A, 1, &[1]), ("b", A, 1, &[]), ("b", SRV, 1, &[1])];
const ONE_NAME_ASKS: [&[Ask]; 9] = [
    &[("", ANY, ANY)],
    &[("", A, 1)],
    &[("", ANY, 1)],
    &[("", A, ANY)],
    &[("", TXT, 1), ("", A, 3)],
    &[("", ANY, 3), ("", CNAME, 1)],
    &[("", 0, ANY)],
    &[("", A, 1), ("", ANY, ANY)],
    &[("", TXT, ANY), ("", SRV, 3)],
];
const TWO_NAMES_ASKS: [&[Ask]; 4] = [
    &[("", ANY, ANY), ("b", ANY, ANY)],
    &[("", ANY, 3), ("b", A, 1)],
    &[("b", SRV, 1), ("", A, ANY), ("b", A, ANY)],
    &[("b", ANY, 1), ("", TXT, 3), ("c", ANY, ANY)],
];

/// For each set of questions a walk over all sets of five records, in random order.
pub fn all(bench: &mut Bench, random: &mut Random) {
    for asks in ONE_NAME_ASKS {
        walk(bench, &ONE_NAME, asks, random);
    }
    for asks in TWO_NAMES_ASKS {
        walk(bench, &TWO_NAMES, asks, random);
    }
    clearings(bench, &ONE_NAME, ONE_NAME_ASKS[0], random);
    clearings(bench, &ONE_NAME, ONE_NAME_ASKS[4], random);
    clearings(bench, &TWO_NAMES, TWO_NAMES_ASKS[0], random);
}

fn shuffled<T>(mut items: Vec<T>, random: &mut Random) -> Vec<T> {
    for last in (1..items.len()).rev() {
        items.swap(last, random.below(last + 1));
    }
    items
}

fn ask(bench: &mut Bench, asks: &[Ask]) {
    for (number, (name, rtype, class)) in asks.iter().enumerate() {
        bench.subscribe(number as u16 + 1, &at(name), *rtype, *class);
    }
}

fn walk(bench: &mut Bench, rows: &[Row; 5], asks: &[Ask], random: &mut Random) {
    bench.fresh();
    ask(bench, asks);
    let mut held = 0;
    for wanted in shuffled((0..1usize << rows.len()).collect(), random) {
        let mut edits = Vec::new();
        for (number, (text, rtype, class, rdata)) in rows.iter().enumerate() {
            let one = |ttl: u32, random: &mut Random| edit(&respelled(&at(text), random), *rtype, *class, ttl, rdata);
            let bit = 1 << number;
            match (held & bit != 0, wanted & bit != 0) {
                (true, false) => edits.push(one(TTL_ONE, random)),
                (false, true) => edits.push(one(120, random)),
                (true, true) if random.once_in(6) => edits.push(one(120 + random.below(2) as u32, random)),
                (true, true) if random.once_in(6) => edits.push([one(TTL_ONE, random), one(120, random)].concat()),
                (false, false) if random.once_in(9) => edits.push(one(TTL_ONE, random)),
                (false, false) if random.once_in(9) => edits.push([one(120, random), one(TTL_ONE, random)].concat()),
                _ => {}
            }
        }
        held = wanted;
        bench.edits(&shuffled(edits, random));
    }
    bench.ask_again(1);
}

/// Sets of the five records that come together and leave together, at times but for one of them.
fn clearings(bench: &mut Bench, rows: &[Row; 5], asks: &[Ask], random: &mut Random) {
    bench.fresh();
    ask(bench, asks);
    let sets: Vec<usize> = (1..1usize << rows.len()).filter(|set| set.count_ones() > 1).collect();
    for set in shuffled(sets, random) {
        let chosen: Vec<&Row> =
            (0..rows.len()).filter(|number| set >> number & 1 == 1).map(|number| &rows[number]).collect();
        let all = |ttl: u32, random: &mut Random| -> Vec<Vec<u8>> {
            let one = |row: &Row, random: &mut Random| edit(&respelled(&at(row.0), random), row.1, row.2, ttl, row.3);
            chosen.iter().map(|row| one(row, random)).collect()
        };
        let puts = all(120, random);
        bench.edits(&shuffled(puts, random));
        let deletes = all(TTL_ONE, random);
        let stays = usize::from(random.once_in(5));
        bench.edits(&shuffled(deletes, random)[stays..]);
    }
}
