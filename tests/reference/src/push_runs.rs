//! Runs with a purpose: what a session sees, how records leave it and come, in which order and spelling.

use crate::craft::{dotted, edit, name};
use crate::pool::below;
use crate::push_cases::Bench;
use crate::push_edits::{at, delete, put, set, A, ANY, CNAME, SRV, TXT};
use crate::random::Random;
use crate::zone::TTL_ONE;

pub fn all(bench: &mut Bench, random: &mut Random) {
    spelling(bench);
    moved(bench);
    aliases(bench);
    classes(bench);
    hidden(bench);
    many_names(bench);
    overlapping(bench);
    sixteen(bench, random);
    strange_names(bench);
    times_to_live(bench);
}

/// Spelling is kept by a put of a held record, and is that of the first leaving record in a removal.
fn spelling(bench: &mut Bench) {
    bench.fresh();
    bench.subscribe(1, &dotted("A.shop.EXAMPLE"), ANY, ANY);
    let spelled = |text: &str, rtype: u16, ttl: u32, rdata: &[u8]| edit(&dotted(text), rtype, 1, ttl, rdata);
    bench.edits(&[spelled("a.Shop.example", A, 120, &[1])]);
    bench.edits(&[spelled("A.SHOP.EXAMPLE", A, 120, &[1])]);
    bench.edits(&[spelled("a.shop.example", A, 121, &[1])]);
    bench.ask_again(1);
    bench.edits(&[spelled("A.shop.example", A, 120, &[2])]);
    bench.edits(&[spelled("a.SHOP.example", A, TTL_ONE, &[1])]);
    bench.edits(&[spelled("a.shop.eXample", A, TTL_ONE, &[2])]);
    bench.edits(&[spelled("a.shop.examplE", TXT, 120, b"x"), spelled("A.shop.example", SRV, 120, b"X")]);
    bench.edits(&[spelled("a.shop.example", TXT, 120, b"X"), spelled("a.shop.example", TXT, TTL_ONE, b"x")]);
    bench.ask_again(1);
    let both = [spelled("a.shop.example", TXT, TTL_ONE, b"X"), spelled("a.shop.example", SRV, TTL_ONE, b"X")];
    bench.edits(&both);
    bench.edits(&[spelled("A.Shop.example", TXT, 1, &[]), spelled("a.sHop.example", TXT, 1, &[9])]);
    bench.edits(&[spelled("a.shop.example", TXT, TTL_ONE, &[9]), spelled("a.shop.example", TXT, TTL_ONE, &[])]);
    bench.edits(&[spelled("b.Shop.example", TXT, 1, &[])]);
    bench.subscribe(2, &dotted("B.SHOP.EXAMPLE"), TXT, 1);
}

/// A record that is deleted and put again in one batch goes to the end and takes the new spelling.
fn moved(bench: &mut Bench) {
    bench.fresh();
    bench.subscribe(7, &at("a"), ANY, 1);
    bench.edits(&[put("a", A, 1, &[1]), put("a", A, 1, &[2]), put("a", TXT, 1, &[1])]);
    bench.edits(&[delete("a", A, 1, &[1]), put("A", A, 1, &[1])]);
    bench.ask_again(7);
    bench.edits(&[delete("a", A, 1, &[2]), set("A", A, 1, 60, &[2])]);
    bench.ask_again(7);
    bench.edits(&[put("a", A, 1, &[1]), delete("a", A, 1, &[1]), put("a", A, 1, &[1])]);
    bench.edits(&[set("a", A, 1, 9, &[1]), set("a", A, 1, 120, &[1])]);
    bench.edits(&[put("a", SRV, 1, &[1]), delete("A", SRV, 1, &[1])]);
    bench.edits(&[put("a", SRV, 1, &[1]), set("A", SRV, 1, 8, &[1])]);
    bench.edits(&[delete("a", A, 1, &[1]), delete("a", A, 1, &[2]), put("a", A, 1, &[3])]);
    bench.edits(&[delete("a", A, 1, &[3]), delete("a", A, 1, &[3])]);
    bench.ask_again(7);
}

/// A CNAME record is seen by every type, in the classes that are asked.
fn aliases(bench: &mut Bench) {
    bench.fresh();
    bench.subscribe(1, &at("a"), A, 1);
    bench.edits(&[put("a", CNAME, 1, &[1])]);
    bench.edits(&[put("a", CNAME, 3, &[1])]);
    bench.edits(&[put("b", CNAME, 1, &[1])]);
    bench.edits(&[put("a", 4, 1, &[]), put("a", 6, 1, &[]), put("a", 0x0500, 1, &[]), put("a", 0x0105, 1, &[])]);
    bench.subscribe(2, &at("a"), CNAME, ANY);
    bench.subscribe(3, &at("a"), 0, 3);
    bench.edits(&[delete("a", CNAME, 1, &[1]), put("a", CNAME, 1, &[2]), put("a", A, 1, &[2])]);
    bench.unsubscribe(2);
    bench.edits(&[set("a", CNAME, 3, 7, &[1]), set("a", CNAME, 1, 7, &[2])]);
    bench.edits(&[delete("a", CNAME, 1, &[2]), delete("a", A, 1, &[2])]);
    bench.edits(&[put("a", CNAME, 1, &[2]), put("a", A, 1, &[2])]);
    bench.edits(&[4, 6, 0x0500, 0x0105].map(|rtype| delete("a", rtype, 1, &[])));
    bench.edits(&[delete("a", CNAME, 1, &[2]), delete("a", A, 1, &[2])]);
    bench.edits(&[delete("a", CNAME, 3, &[1])]);
    bench.subscribe(4, &at("a"), CNAME, 1);
    bench.edits(&[put("a", A, 1, &[]), put("a", TXT, 1, &[]), put("a", CNAME, 1, &[])]);
}

fn classes(bench: &mut Bench) {
    let numbers = [1u16, 3, 4, 254, 256, 0xff00, 0xffff];
    for (rtype, class) in [(ANY, ANY), (A, ANY), (ANY, 256), (TXT, 254)] {
        bench.fresh();
        bench.edits(&numbers.map(|number| put("", A, number, &[])));
        bench.subscribe(1, &at(""), rtype, class);
        bench.edits(&numbers.map(|number| set("", A, number, u32::from(number), &[])));
        bench.edits(&numbers.map(|number| put("", TXT, number, &[])));
        bench.edits(&[delete("", A, 1, &[]), delete("", TXT, 1, &[]), delete("", A, 254, &[])]);
        bench.edits(&[delete("", TXT, 256, &[]), delete("", TXT, 254, &[])]);
        bench.edits(&[3, 4, 254, 256].map(|number| delete("", A, number, &[])));
        bench.edits(&[3, 4].map(|number| delete("", TXT, number, &[])));
        bench.edits(&[0xff00, 0xffff].map(|number| delete("", A, number, &[])));
        bench.edits(&[put("", TXT, 256, &[]), delete("", TXT, 0xffff, &[])]);
        bench.edits(&[delete("", TXT, 256, &[]), delete("", TXT, 0xff00, &[])]);
        bench.ask_again(1);
    }
}

/// Records that no subscription sees count for the truth of a removal, not for its width.
fn hidden(bench: &mut Bench) {
    bench.fresh();
    bench.subscribe(1, &at(""), A, 1);
    bench.subscribe(2, &at(""), TXT, 1);
    let put_all = [put("", A, 1, &[1]), put("", SRV, 1, &[1]), put("", TXT, 1, &[1]), put("", A, 3, &[1])];
    let seen = [delete("", A, 1, &[1]), delete("", TXT, 1, &[1])];
    bench.edits(&put_all);
    bench.edits(&seen);
    bench.edits(&put_all);
    bench.edits(&[&seen[..], &[delete("", SRV, 1, &[1])]].concat());
    bench.edits(&put_all);
    bench.edits(&[&seen[..], &[delete("", SRV, 1, &[1]), delete("", A, 3, &[1])]].concat());
    bench.edits(&put_all);
    bench.edits(&[delete("", SRV, 1, &[1])]);
    bench.edits(&[&seen[..1], &[put("", SRV, 1, &[2]), delete("", A, 3, &[1])]].concat());
    bench.unsubscribe(2);
    bench.edits(&[delete("", TXT, 1, &[1]), put("", A, 1, &[1])]);
    bench.edits(&[delete("", A, 1, &[1]), delete("", SRV, 1, &[2])]);
    bench.unsubscribe(1);
    bench.edits(&put_all);
    bench.edits(&seen);
    bench.subscribe(1, &at(""), ANY, 3);
    bench.edits(&[delete("", A, 3, &[1])]);
    bench.edits(&[delete("", SRV, 1, &[1])]);
}

/// Every kind of removal in one PUSH, ordered by the first leaving record, then adds in the table's order.
fn many_names(bench: &mut Bench) {
    for backwards in [false, true] {
        bench.fresh();
        let mut all = vec![
            ("d", A, 1, &[1][..]),
            ("a", A, 1, &[1]),
            ("b", A, 1, &[1]),
            ("c", A, 1, &[1]),
            ("b", TXT, 1, &[1]),
            ("a", A, 3, &[1]),
            ("c", A, 1, &[2]),
            ("d", TXT, 1, &[1]),
            ("d", A, 1, &[2]),
            ("c", A, 1, &[3]),
            ("b", SRV, 3, &[1]),
        ];
        if backwards {
            all.reverse();
        }
        for (number, text) in ["c", "a", "d", "b"].into_iter().enumerate() {
            bench.subscribe(0x0fff + number as u16, &at(text), ANY, ANY);
        }
        let every: Vec<Vec<u8>> =
            all.iter().map(|(text, rtype, class, rdata)| put(text, *rtype, *class, rdata)).collect();
        bench.edits(&every);
        let stays =
            |row: &&(&str, u16, u16, &[u8])| matches!(**row, ("d", TXT, ..) | ("c", A, 1, [2]) | ("b", SRV, ..));
        let leave =
            all.iter().filter(|row| !stays(row)).map(|(text, rtype, class, rdata)| delete(text, *rtype, *class, rdata));
        let mut mixed: Vec<Vec<u8>> = leave.collect();
        mixed.extend([put("e", A, 1, &[]), put("a", 6, 1, &[]), set("d", TXT, 1, 7, &[1]), put("b", 6, 1, &[])]);
        bench.edits(&mixed);
        bench.edits(&every);
        bench.unsubscribe(0x0fff);
        bench.edits(&mixed);
        bench.edits(&[delete("c", A, 1, &[2]), delete("a", 6, 1, &[])]);
    }
}

/// One add for a record that several subscriptions match; a later SUBSCRIBE writes its whole view all the same.
fn overlapping(bench: &mut Bench) {
    bench.fresh();
    bench.edits(&[put("a", A, 1, &[1]), put("a", TXT, 1, &[1]), put("b", A, 1, &[1])]);
    for (id, rtype, class) in [(1, A, 1), (2, ANY, 1), (3, A, ANY), (4, ANY, ANY)] {
        bench.subscribe(id, &at("A"), rtype, class);
    }
    bench.edits(&[put("a", A, 1, &[2]), put("a", A, 3, &[2])]);
    bench.unsubscribe(4);
    bench.edits(&[put("a", TXT, 3, &[]), put("a", SRV, 1, &[])]);
    bench.unsubscribe(4);
    bench.unsubscribe(0);
    bench.unsubscribe(2);
    bench.edits(&[set("a", TXT, 1, 9, &[1]), set("a", A, 1, 9, &[1])]);
    bench.subscribe(2, &at("b"), ANY, ANY);
    bench.subscribe(4, &at("a"), TXT, 1);
    bench.edits(&[delete("a", A, 1, &[1]), delete("a", A, 1, &[2]), delete("b", A, 1, &[1]), delete("a", A, 3, &[2])]);
    bench.unsubscribe(1);
    bench.unsubscribe(3);
    bench.edits(&[put("a", A, 1, &[1]), delete("a", TXT, 1, &[1])]);
}

/// Sixteen subscriptions, of which some end and others come.
fn sixteen(bench: &mut Bench, random: &mut Random) {
    bench.fresh();
    let texts = ["a", "b", "", "x.a"];
    for id in 1..=16u16 {
        bench.subscribe(id * 0x0fff, &at(texts[usize::from(id) % 4]), [A, TXT, 0, ANY][usize::from(id - 1) / 4], 1);
    }
    for round in 0..6 {
        let text = texts[round % 4];
        bench.edits(&[put(text, A, 1, &[1]), put(text, TXT, 1, &[]), put(texts[(round + 1) % 4], SRV, 1, &[1])]);
        let held = random.pick(bench.live()).id;
        bench.ask_again(held);
        bench.edits(&[delete(text, A, 1, &[1]), delete(text, TXT, 1, &[]), put(text, CNAME, 1, &[])]);
        bench.unsubscribe(held);
        bench.subscribe(40_000 + round as u16, &at(text), SRV, ANY - round as u16);
    }
}

/// Asterisks, octets that look like lengths, dots and letters, and names that end in others.
fn strange_names(bench: &mut Bench) {
    bench.fresh();
    let zone = at("");
    let inner: [&[&[u8]]; 12] = [
        &[b"*"],
        &[b"**"],
        &[b"*", b"a"],
        &[b"a"],
        &[b"a", b"a"],
        &[b"aa"],
        &[b"a.a"],
        &[b"a\x01a"],
        &[b"\x01a"],
        &[b"\x00"],
        &[b"@[`{"],
        &[b"\xe1\xc1"],
    ];
    for (number, labels) in inner.iter().enumerate().step_by(2) {
        bench.subscribe(number as u16 + 1, &below(&zone, labels), ANY, 1);
    }
    for labels in inner {
        bench.batch(&edit(&below(&zone, labels), A, 1, 120, &[]));
    }
    bench.batch(&edit(&below(&zone, &[b"`{@["]), A, 1, 120, &[]));
    bench.subscribe(100, &below(&zone, &[b"`[`["]), A, 1);
    bench.subscribe(101, &below(&zone, &[b"\xc1\xe1"]), A, 1);
    bench.subscribe(102, &below(&zone, &[b"\xe1\xc1"]), A, 1);
    bench.batch(&inner.map(|labels| edit(&below(&zone, labels), A, 1, TTL_ONE, &[])).concat());
    bench.batch(&edit(&name(&[b"shop", b"example", b"shop", b"example"]), A, 1, 120, &[]));
    bench.subscribe(103, &name(&[b"Shop", b"Example", b"Shop", b"Example"]), A, 1);
}

fn times_to_live(bench: &mut Bench) {
    bench.fresh();
    bench.subscribe(1, &at("a"), ANY, ANY);
    for ttl in [0, 1, 0xff, 0x0100, 0xffff, 0x0001_0000, 0x0102_0304, 0x7fff_fffe, 0x7fff_ffff, 0] {
        bench.edits(&[set("a", A, 1, ttl, &[1])]);
        bench.edits(&[set("a", A, 1, ttl, &[1]), set("b", A, 1, ttl, &[1])]);
        bench.edits(&[set("a", TXT, 1, ttl, &[1]), set("a", A, 1, ttl, &[1])]);
    }
    bench.ask_again(1);
}
