//! The replay program's vectors: one script that reaches all that a line can reach (`reach` counts it).

use crate::bench_script;
use crate::call::Call;
use crate::craft::{self, dotted, edit};
use crate::generate::Generator;
use crate::pool::below;
use crate::replay::{write_line, MAX_LINE, ZONE};
use crate::run::Run;
use crate::script::{long_line, spoiled};
use crate::zone::TTL_ONE;

/// How many lines the random part ends at, and how long its lines may be.
const LINES: usize = 5_600;
const SHORT: usize = 420;

const NAME: &str = "a.shop.example";

fn put(rtype: u16, class: u16, rdata: &[u8]) -> Vec<u8> {
    edit(&dotted(NAME), rtype, class, 120, rdata)
}

fn delete(rtype: u16, class: u16, rdata: &[u8]) -> Vec<u8> {
    edit(&dotted(NAME), rtype, class, TTL_ONE, rdata)
}

/// Each clock one millisecond before its limit and at it: inactivity, keepalive as it is at first, and as it is granted.
fn clocks(run: &mut Run) {
    let begin = run.server.latest + 1_000;
    let idle = run.open(begin);
    let silent = run.open(begin);
    let granted = run.open(begin);
    run.subscribe(silent, 1, NAME, 255, 255);
    run.subscribe(granted, 1, NAME, 255, 255);
    run.message(granted, craft::keepalive(2, 0, 0));
    let kept = run.open(begin);
    run.call(Call::Message { time: begin + 20_000, session: kept, bytes: craft::keepalive(1, 9, 9) });
    run.tick(begin + 29_999);
    run.tick(begin + 30_000);
    run.tick(begin + 119_999);
    run.tick(begin + 120_000);
    run.message(idle, craft::message(3, 0, &[]));
    run.clear();
}

/// The lowest free number is taken again, and a fifth session is refused.
fn sessions(run: &mut Run) {
    for _ in 0..5 {
        run.open(run.server.latest);
    }
    run.close(2);
    run.close(1);
    run.close(1);
    run.open(run.server.latest);
    run.message(0, Vec::new());
    run.open(run.server.latest);
    run.clear();
}

/// The seventeenth subscription, one that ends, and its place used again.
fn subscriptions(run: &mut Run) {
    let session = run.open(run.server.latest);
    for id in 1..=17 {
        run.subscribe(session, id, NAME, 100 + id, 1);
    }
    run.message(session, craft::unsubscribe(3));
    run.message(session, craft::unsubscribe(3));
    run.subscribe(session, 18, NAME, 118, 1);
    run.clear();
}

/// Forty records, one more, one deleted, and its place used again; every refusal of a batch.
fn table(run: &mut Run) {
    let numbered = |number: u8, ttl: u32| edit(&dotted(NAME), 1, 1, ttl, &[192, 0, 2, number]);
    let some = |range: std::ops::Range<u8>| range.map(|number| numbered(number, 60)).collect::<Vec<_>>();
    run.batch(&some(0..33));
    run.batch(&some(0..32));
    run.batch(&some(32..40));
    run.batch(&some(40..41));
    run.batch(&[numbered(7, TTL_ONE), numbered(40, 60)]);
    run.batch(&[numbered(1, 60), vec![1]]);
    run.batch(&[numbered(1, 0x8000_0000)]);
    run.batch(&[]);
    run.clear();
}

/// Each kind of change notification.
fn notices(run: &mut Run) {
    let session = run.open(run.server.latest);
    run.subscribe(session, 1, NAME, 255, 255);
    run.batch(&[put(1, 1, &[1]), put(1, 1, &[2]), put(16, 1, &[3]), put(16, 3, &[4])]);
    run.batch(&[delete(1, 1, &[1])]);
    run.batch(&[delete(1, 1, &[2])]);
    run.batch(&[put(1, 1, &[1])]);
    run.batch(&[delete(1, 1, &[1]), delete(16, 1, &[3])]);
    run.batch(&[put(1, 1, &[1])]);
    run.batch(&[delete(1, 1, &[1]), delete(16, 3, &[4])]);
    run.clear();
}

/// Lines that are no lines, each between two that are.
fn unreadable(run: &mut Run) {
    let lines: [&[u8]; 36] = [
        b"",
        b"\t",
        b"open",
        b"open\t",
        b"open\t1\t",
        b"open\t1\t0",
        b"open 1",
        b"Open\t1",
        b"opens\t1",
        b" open\t1",
        b"open\t+1",
        b"open\t-1",
        b"open\t01",
        b"open\t00",
        b"open\t1 ",
        b"open\t1\r",
        b"open\t1\0",
        b"\0",
        b"\xff\xfe",
        b"tick\t18446744073709551616",
        b"tick\t99999999999999999999",
        b"tick\t100000000000000000000",
        b"tick\t0x10",
        b"close\t1",
        b"close\t1\t",
        b"close\t1\t0\t0",
        b"close\t1\t00",
        b"close\t1\t18446744073709551616",
        b"msg\t1\t0",
        b"msg\t1\t0\t0",
        b"msg\t1\t0\tAB",
        b"msg\t1\t0\t0g",
        b"msg\t1\t0\tab\t",
        b"batch\t1",
        b"batch\t1\tabc",
        b"? 19",
    ];
    for line in lines {
        run.line(line);
        run.tick(run.server.latest);
    }
}

/// A message line of 32,768 bytes, and one that is a byte longer.
fn longest(run: &mut Run) {
    for length in [MAX_LINE, MAX_LINE + 1] {
        run.open(run.server.latest);
        let line = long_line(&run.server, length);
        run.line(&line);
    }
    run.clear();
}

/// Messages that end their session, or that another part of the host handles, or that are for the host to confirm.
fn verdicts(run: &mut Run) {
    let zone = dotted(ZONE);
    let session = run.open(run.server.latest);
    run.message(session, craft::message(9, 0, &[]));
    run.message(session, craft::reconfirm(&below(&zone, &[b"r"]), 1, 1, &[1, 2, 3]));
    run.message(session, craft::message(9, craft::REQUEST, &[]));
    run.message(session, craft::message(9, craft::REQUEST, &craft::tlv(0x30, &[])));
    run.subscribe(session, 9, "a.elsewhere", 1, 1);
    run.subscribe(session, 9, NAME, 1, 1);
    run.subscribe(session, 9, NAME, 16, 1);
    run.message(9, Vec::new());
    run.close(u64::MAX);
    run.clear();
}

/// A random run of lines that are not long, some of them spoiled.
fn random(run: &mut Run, seed: u64) {
    let mut generator = Generator::new(seed, &dotted(ZONE));
    while run.lines < LINES {
        let line = write_line(&generator.next(&run.server)).into_bytes();
        if line.len() > SHORT && !generator.random.once_in(80) {
            continue;
        }
        let is_spoiled = generator.random.once_in(40);
        run.line(&if is_spoiled { spoiled(line, &mut generator.random) } else { line });
    }
    run.clear();
}

/// Times of 33 and of 64 bits, to the last.
fn late(run: &mut Run) {
    for time in [1 << 32, (1 << 63) - 1, 1 << 63, u64::MAX - 31_000, u64::MAX - 30_000] {
        run.tick(time);
        run.open(time);
    }
    for time in [u64::MAX - 1_001, u64::MAX - 1_000, u64::MAX - 1, u64::MAX, u64::MAX - 1, 0, u64::MAX] {
        run.tick(time);
    }
    run.open(u64::MAX);
    run.subscribe(0, 1, NAME, 255, 255);
    run.batch(&[put(1, 1, &[1])]);
}

/// The script; its last LF is missing.
pub fn vectors(seed: u64) -> Vec<u8> {
    let mut run = bench_script::bench().run;
    for part in [clocks, sessions, subscriptions, table, notices, verdicts, unreadable, longest] {
        part(&mut run);
    }
    random(&mut run, seed);
    clocks(&mut run);
    late(&mut run);
    run.text.pop();
    run.text
}
