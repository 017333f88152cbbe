//! Runs at the limits of sizes and counts: RDATA, names, records, edits, and long PUSHes.

use crate::craft::{edit, stretched};
use crate::push_cases::Bench;
use crate::push_edits::{at, delete, put, set, A, ANY, TXT};
use crate::zone::{MAX_EDITS, MAX_RECORDS, TTL_ONE};

pub fn all(bench: &mut Bench) {
    contents(bench);
    long_names(bench);
    long_view(bench);
    full_view(bench);
    full_table(bench);
    many_edits(bench);
}

/// RDATA of no, 128 and 129 octets; RDATA compares byte by byte.
fn contents(bench: &mut Bench) {
    bench.fresh();
    bench.subscribe(1, &at(""), ANY, ANY);
    for length in [0, 1, 127, 128, 129, 255, 256] {
        bench.edits(&[put("", TXT, 1, &vec![b'r'; length])]);
        bench.edits(&[put("b", TXT, 1, &vec![b'r'; length])]);
    }
    bench.edits(&[put("", TXT, 1, b"R"), put("", TXT, 1, b"rr"), put("", A, 1, b"r")]);
    bench.edits(&[delete("", TXT, 1, b"R"), delete("", TXT, 1, b"RR"), delete("", TXT, 1, &[])]);
    bench.edits(&[delete("", TXT, 1, &[b'r'; 129])]);
    bench.edits(&[delete("", TXT, 1, &[b'r'; 128]), delete("", TXT, 1, &[b'R'; 127])]);
    bench.ask_again(1);
    bench.edits(&[delete("", A, 1, b"r"), delete("", TXT, 1, &[b'r'; 127])]);
    bench.edits(&[delete("", TXT, 1, b"r"), delete("", TXT, 1, b"rr")]);
}

/// A PUSH of 38 records of the longest kind, then 32 single removals, then one of all types.
fn long_view(bench: &mut Bench) {
    bench.fresh();
    let long = stretched(&at(""), 255, b'v');
    let one = |number: u8, ttl: u32| edit(&long, if number % 2 == 1 { TXT } else { A }, 1, ttl, &[number; 128]);
    let some = |from: u8, to: u8, ttl: u32| (from..to).map(|number| one(number, ttl)).collect::<Vec<_>>();
    bench.edits(&some(0, 32, 120));
    bench.edits(&some(32, 38, 120));
    bench.subscribe(1, &long, ANY, ANY);
    bench.edits(&some(3, 35, TTL_ONE));
    bench.edits(&[one(1, 120), one(0, 121), one(2, TTL_ONE)]);
    bench.unsubscribe(1);
    bench.subscribe(2, &long, TXT, 1);
    bench.edits(&[one(0, TTL_ONE), one(1, TTL_ONE)]);
    bench.subscribe(1, &long, ANY, ANY);
    bench.edits(&some(35, 38, TTL_ONE));
}

/// A PUSH of 40 records, nearly as long as the longest one, from a table that is full.
fn full_view(bench: &mut Bench) {
    bench.fresh();
    let long = stretched(&at(""), 255, b'W');
    let one = |number: u8, ttl: u32| edit(&long, A, u16::from(number % 4) + 1, ttl, &[number; 109]);
    let some = |from: u8, to: u8, ttl: u32| (from..to).map(|number| one(number, ttl)).collect::<Vec<_>>();
    bench.edits(&some(0, 32, 120));
    bench.edits(&some(32, 40, 0));
    bench.subscribe(0xffff, &stretched(&at(""), 255, b'w'), ANY, ANY);
    bench.edits(&[one(40, 120)]);
    bench.edits(&[one(7, TTL_ONE), one(40, 120)]);
    bench.edits(&[one(39, 120), one(38, 0)]);
    bench.edits(&[one(7, 120), one(8, TTL_ONE)]);
    bench.edits(&[one(8, TTL_ONE), one(9, TTL_ONE), one(7, 120)]);
    bench.edits(&[one(7, TTL_ONE), one(41, TTL_ONE)]);
}

/// Names of 254 and 255 octets, and one of 256; labels of 63 and of 64.
fn long_names(bench: &mut Bench) {
    bench.fresh();
    let names: Vec<Vec<u8>> = [254, 255, 256].map(|total| stretched(&at(""), total, b'k')).to_vec();
    let labels = [62, 63, 64].map(|length| at(&"l".repeat(length)));
    bench.subscribe(1, &names[1].to_ascii_uppercase(), ANY, ANY);
    bench.subscribe(2, &labels[1], A, ANY);
    for name in names.iter().chain(&labels) {
        bench.batch(&edit(name, A, 1, 120, &[1]));
    }
    bench.subscribe(3, &names[0], A, 1);
    bench.subscribe(4, &labels[0], A, 1);
    for name in names.iter().chain(&labels) {
        bench.batch(&edit(name, A, 1, TTL_ONE, &[1]));
    }
    bench.ask_again(1);
}

/// Forty records, and puts that find them.
fn full_table(bench: &mut Bench) {
    bench.fresh();
    bench.subscribe(1, &at(""), A, 1);
    let small = |number: usize, ttl: u32| set("", if number < 20 { A } else { TXT }, 1, ttl, &[number as u8]);
    let some = |from: usize, to: usize, ttl: u32| (from..to).map(|number| small(number, ttl)).collect::<Vec<_>>();
    bench.edits(&some(0, MAX_EDITS, 120));
    bench.edits(&some(MAX_EDITS, MAX_RECORDS + 1, 120));
    bench.edits(&some(MAX_EDITS, MAX_RECORDS, 120));
    bench.edits(&[small(40, 120)]);
    bench.edits(&[small(40, TTL_ONE)]);
    bench.edits(&[small(39, 120), small(0, 60)]);
    bench.edits(&[put("b", A, 1, &[])]);
    bench.edits(&[small(40, 120), small(0, TTL_ONE)]);
    bench.edits(&[small(0, TTL_ONE), small(40, 120), small(41, 120)]);
    bench.edits(&[small(0, TTL_ONE), put("", A, 1, &[40])]);
    bench.edits(&[small(0, 120)]);
    bench.edits(&[small(1, TTL_ONE), small(1, 120)]);
    bench.edits(&[small(1, TTL_ONE), small(2, TTL_ONE), small(1, 121), put("", A, 1, &[41])]);
    bench.edits(&[small(1, TTL_ONE), small(40, TTL_ONE)]);
    bench.ask_again(1);
    bench.edits(&[small(1, 120), small(2, 120)]);
    bench.edits(&some(0, MAX_EDITS, TTL_ONE));
    bench.edits(&some(MAX_EDITS, MAX_RECORDS, TTL_ONE));
    bench.edits(&[delete("", A, 1, &[41]), delete("", A, 1, &[40])]);
}

/// Thirty-two edits and a thirty-third, of which one octet is enough.
fn many_edits(bench: &mut Bench) {
    bench.fresh();
    bench.subscribe(1, &at(""), ANY, ANY);
    let same = vec![set("", A, 1, 120, &[]); MAX_EDITS].concat();
    let with = |tail: &[u8]| [&same, tail].concat();
    bench.batch(&with(&put("", A, 1, &[])));
    bench.batch(&with(&[4]));
    bench.batch(&with(&[0xff]));
    bench.batch(&same);
    bench.batch(&with(&put("", 0, 1, &[])));
    let last = MAX_EDITS - 1;
    let early = |tail: &[u8]| [vec![set("", A, 1, 60, &[]); last].concat(), tail.to_vec()].concat();
    bench.batch(&early(&put("", 0, 1, &[])));
    bench.batch(&early(&put("", TXT, 1, &[])[..20]));
    bench.batch(&early(&put("", TXT, 1, &[])));
    bench.batch(&[put("", ANY, 1, &[]), same.clone(), vec![4]].concat());
    bench.batch(&vec![delete("", A, 1, &[]); MAX_EDITS].concat());
    bench.batch(&vec![delete("", TXT, 1, &[]); MAX_EDITS + 1].concat());
    bench.ask_again(1);
}
