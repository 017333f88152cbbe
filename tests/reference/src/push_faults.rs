//! Runs of batches that are refused, for their bytes or their values, among those that are not.

use crate::craft::{dotted, edit, name};
use crate::push_cases::Bench;
use crate::push_edits::{at, delete, put, set, A, ANY, CNAME, SRV, TXT};
use crate::zone::{MAX_EDITS, MAX_RECORDS, TTL_ONE};

pub fn all(bench: &mut Bench) {
    cuts(bench);
    broken(bench);
    fields(bench);
    outside(bench);
    first_fault(bench);
    nothing_seen(bench);
}

/// An edit after a good one, cut at every place; then octets changed.
fn cuts(bench: &mut Bench) {
    bench.fresh();
    bench.subscribe(1, &at(""), ANY, ANY);
    let good = put("", A, 1, &[1]);
    let cut = put("", TXT, 1, &[1, 2]);
    for kept in 1..cut.len() {
        bench.batch(&[&good, &cut[..kept]].concat());
    }
    bench.ask_again(1);
    bench.batch(&[&good[..], &cut].concat());
    for kept in [1, 5, 14, 15, 20, 23, 24] {
        bench.batch(&[&delete("", A, 1, &[1])[..], &cut[..kept]].concat());
    }
    bench.ask_again(1);
}

/// Label lengths and RDATA lengths that do not fit what follows.
fn broken(bench: &mut Bench) {
    bench.fresh();
    bench.subscribe(1, &at("a"), A, 1);
    let good = put("a", A, 1, &[1, 2]);
    for (place, octet) in
        [(0, 0), (0, 2), (0, 63), (0, 64), (0, 192), (0, 255), (2, 3), (2, 5), (2, 64), (7, 0x47), (15, 1), (15, 192)]
    {
        let mut bytes = good.clone();
        bytes[place] = octet;
        bench.batch(&bytes);
        bench.batch(&[put("a", A, 1, &[]), bytes].concat());
    }
    for length in [0u16, 1, 3, 128, 129, 255, 256, 512, 0x0200, 0xffff] {
        let mut bytes = good.clone();
        bytes[24..26].copy_from_slice(&length.to_be_bytes());
        bench.batch(&bytes);
    }
    for tail in [&[0][..], &[0; 10], &[0; 11], &[0xc0, 0], &[0, 0, 1, 0, 1, 0, 0, 0, 0, 0, 0]] {
        bench.batch(&[&good[..], tail].concat());
    }
    bench.ask_again(1);
}

/// Values around those that are not allowed, in puts and in deletes.
fn fields(bench: &mut Bench) {
    bench.fresh();
    bench.subscribe(1, &at(""), ANY, ANY);
    for ttl in [120, TTL_ONE] {
        for value in [0, 254, 255, 256, 0xff00, 0xffff] {
            bench.edits(&[set("", value, 1, ttl, &[])]);
            bench.edits(&[set("", 1, value, ttl, &[])]);
        }
    }
    for ttl in [0x7fff_ffff, 0x8000_0000, 0x8000_0078, 0xfffe_ffff, 0xffff_fffd, 0xffff_fffe, 0xffff_ffff] {
        bench.edits(&[set("", TXT, 1, ttl, &[])]);
        bench.edits(&[put("", SRV, 3, &[]), set("", TXT, 1, ttl, &[1])]);
    }
    bench.edits(&[set("", ANY, 1, 0xffff_fffe, &[])]);
    bench.edits(&[set("", 0, ANY, 0xffff_fffe, &[])]);
    for ttl in [120, TTL_ONE] {
        bench.edits(&[put("", SRV, 4, &[]), set("", SRV, 4, ttl, &[0; 129])]);
        bench.batch(&set("", SRV, 4, ttl, &[0; 129])[..24 + 128]);
    }
    bench.ask_again(1);
}

/// Names outside the zone, in puts and in deletes.
fn outside(bench: &mut Bench) {
    bench.fresh();
    bench.subscribe(1, &at("a"), ANY, ANY);
    let mut names: Vec<Vec<u8>> =
        ["", "example", "shop.example.a", "a.shop.examples", "a.xshop.example", "hop.example", "a.shop.exampl"]
            .map(dotted)
            .to_vec();
    names.push(name(&[b"\x04shop\x07example\x00"]));
    names.push(name(&[b"a\x04shop\x07example"]));
    names.push(name(&[b"a", b"shop.example"]));
    for outside in &names {
        bench.edits(&[put("a", A, 1, &[1]), edit(outside, A, 1, 120, &[1])]);
        bench.edits(&[edit(outside, A, 1, TTL_ONE, &[1]), put("a", A, 1, &[1])]);
    }
    for inside in ["a.SHOP.example", "a.shop.EXAMPLE", "b.shop.example", "SHOP.EXAMPLE", "a.a.Shop.Example"] {
        bench.batch(&edit(&dotted(inside), A, 1, 120, &[2]));
    }
    bench.ask_again(1);
}

/// Two faults in one batch: the first edit with a fault decides.
fn first_fault(bench: &mut Bench) {
    bench.fresh();
    bench.subscribe(1, &at(""), A, 1);
    let fill: Vec<Vec<u8>> = (0..MAX_RECORDS).map(|number| put("", A, 1, &[number as u8])).collect();
    bench.edits(&fill[..MAX_EDITS]);
    bench.edits(&fill[MAX_EDITS..]);
    let unread = put("", A, 1, &[1])[..20].to_vec();
    let both_unread_and_bad = put("", ANY, 0, &[1; 200])[..150].to_vec();
    let edits = [
        set("", A, 1, 60, &[3]),
        delete("", A, 1, &[4]),
        put("", 0, 1, &[]),
        put("", TXT, 1, &[]),
        unread,
        both_unread_and_bad,
    ];
    for first in &edits {
        for second in &edits {
            bench.edits(&[first.clone(), second.clone()]);
        }
    }
    bench.edits(&[set("", A, 1, 61, &[5]), set("", CNAME, 1, 0x8000_0000, &[])]);
    bench.ask_again(1);
}

/// Records outside every subscription, questions that nothing can meet, and batches of no edits.
fn nothing_seen(bench: &mut Bench) {
    bench.fresh();
    bench.batch(&[]);
    bench.edits(&[put("a", A, 1, &[1]), put("b", A, 1, &[1]), put("a", CNAME, 1, &[])]);
    bench.edits(&[delete("a", A, 1, &[1])]);
    bench.subscribe(1, &at("c"), ANY, ANY);
    bench.subscribe(2, &at("a"), ANY, 0);
    bench.subscribe(3, &at("a"), ANY, 3);
    bench.subscribe(4, &at("b"), TXT, ANY);
    bench.subscribe(5, &at("b"), 0, 1);
    bench.batch(&[]);
    bench.edits(&[put("a", A, 1, &[1]), set("b", A, 1, 7, &[1]), put("", A, 1, &[])]);
    bench.edits(&[delete("a", A, 1, &[1]), delete("a", CNAME, 1, &[])]);
    bench.edits(&[put("x.c", A, 1, &[]), put("a", A, 4, &[])]);
    bench.edits(&[put("c", A, 1, &[]), put("b", CNAME, 1, &[])]);
    bench.unsubscribe(1);
    bench.unsubscribe(9);
    bench.unsubscribe(0);
    bench.batch(&[]);
    bench.edits(&[delete("c", A, 1, &[]), put("a", A, 1, &[])]);
    bench.edits(&[delete("b", CNAME, 1, &[]), delete("b", A, 1, &[1])]);
}
