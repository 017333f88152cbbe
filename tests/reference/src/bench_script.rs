//! The bench examples of the scope document as one replay script, and which of its lines are which example.

use crate::craft::{self, dotted, edit, stretched};
use crate::pool::below;
use crate::replay::ZONE;
use crate::run::Run;
use crate::zone::TTL_ONE;

const A: u16 = 1;
const TXT: u16 = 16;
const AAAA: u16 = 28;
const SRV: u16 = 33;
const ANY: u16 = 255;
const IN: u16 = 1;

fn put(rtype: u16, rdata: &[u8]) -> Vec<u8> {
    edit(&dotted("a.shop.example"), rtype, IN, 120, rdata)
}

fn delete(rtype: u16, rdata: &[u8]) -> Vec<u8> {
    edit(&dotted("a.shop.example"), rtype, IN, TTL_ONE, rdata)
}

/// A session that is subscribed to every type of a.shop.example, which holds these records.
fn watched(run: &mut Run, records: &[Vec<u8>]) {
    let session = run.open(run.server.latest);
    run.batch(records);
    run.subscribe(session, 1, "a.shop.example", ANY, IN);
}

fn first(run: &mut Run) {
    run.open(1_000);
    run.batch(&[put(A, &[192, 0, 2, 1])]);
    run.message(0, craft::subscribe(0x1234, &dotted("a.shop.example"), A, IN));
}

fn labels(run: &mut Run) {
    let zone = dotted(ZONE);
    run.open(1_000);
    run.message(0, craft::subscribe(1, &below(&zone, &[&[b'l'; 63]]), A, IN));
    run.message(0, craft::subscribe(2, &below(&zone, &[&[b'l'; 64]]), A, IN));
}

fn lengths(run: &mut Run) {
    let zone = dotted(ZONE);
    run.open(1_000);
    run.message(0, craft::subscribe(1, &stretched(&zone, 255, b'n'), A, IN));
    run.message(0, craft::subscribe(2, &stretched(&zone, 256, b'n'), A, IN));
}

fn seventeen(run: &mut Run) {
    run.open(1_000);
    for id in 1..=17 {
        run.message(0, craft::subscribe(id, &dotted("a.shop.example"), id, IN));
    }
}

fn idle(run: &mut Run) {
    run.open(1_000);
    run.tick(30_999);
    run.tick(31_000);
}

fn all_types(run: &mut Run) {
    watched(run, &[put(SRV, &[1]), put(TXT, &[2])]);
    run.batch(&[delete(SRV, &[1]), delete(TXT, &[2])]);
}

fn two_rrsets(run: &mut Run) {
    watched(run, &[put(SRV, &[1]), put(TXT, &[2]), put(A, &[192, 0, 2, 1])]);
    run.batch(&[delete(SRV, &[1]), delete(TXT, &[2])]);
}

fn two_of_three(run: &mut Run) {
    watched(run, &[put(AAAA, &[1; 16]), put(AAAA, &[2; 16]), put(AAAA, &[3; 16])]);
    run.batch(&[delete(AAAA, &[1; 16]), delete(AAAA, &[3; 16])]);
}

fn back_again(run: &mut Run) {
    watched(run, &[put(A, &[192, 0, 2, 1])]);
    run.batch(&[delete(A, &[192, 0, 2, 1]), put(A, &[192, 0, 2, 1])]);
}

fn matched_twice(run: &mut Run) {
    watched(run, &[]);
    run.subscribe(0, 2, "a.shop.example", A, IN);
    run.batch(&[put(A, &[192, 0, 2, 1])]);
}

fn not_authoritative(run: &mut Run) {
    let session = run.open(run.server.latest);
    run.subscribe(session, 1, "a.elsewhere", A, IN);
}

fn keepalive(run: &mut Run) {
    let session = run.open(run.server.latest);
    run.message(session, craft::keepalive(1, 1, 1));
}

fn time_back(run: &mut Run) {
    run.tick(6);
    run.tick(5);
}

/// Of each example: its number, its first line and its last, counted from 1. What is not in a range clears the server.
pub struct Bench {
    pub run: Run,
    pub ranges: Vec<(u32, usize, usize)>,
}

pub fn bench() -> Bench {
    let examples: [(u32, fn(&mut Run)); 13] = [
        (13, time_back),
        (1, first),
        (2, labels),
        (3, lengths),
        (4, seventeen),
        (5, idle),
        (6, all_types),
        (7, two_rrsets),
        (8, two_of_three),
        (9, back_again),
        (10, matched_twice),
        (11, not_authoritative),
        (12, keepalive),
    ];
    let mut bench = Bench { run: Run::new(), ranges: Vec::new() };
    for (number, example) in examples {
        let begin = bench.run.lines + 1;
        example(&mut bench.run);
        bench.ranges.push((number, begin, bench.run.lines));
        bench.run.clear();
    }
    bench
}
