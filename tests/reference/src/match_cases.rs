//! A subscription's name, type and class beside a record's, with the answer whether they match.

use crate::craft::{dotted, name, respelled, stretched};
use crate::message::Question;
use crate::name as names;
use crate::pool::Pool;
use crate::random::Random;
use crate::zone::{matches, Record};

/// What is asked of a name: type and class.
pub type Fields = (u16, u16);

/// A question and a record's name, type and class; the names need not be names.
#[derive(Clone, Debug, PartialEq, Eq)]
pub struct Case {
    pub asked: Vec<u8>,
    pub question: Fields,
    pub name: Vec<u8>,
    pub record: Fields,
}

impl Case {
    /// 1 where the question matches the record, 2 where it does not, 3 where one of the names is no name.
    pub fn answer(&self) -> u32 {
        if !names::is_whole(&self.asked) || !names::is_whole(&self.name) {
            return 3;
        }
        let question = Question { name: self.asked.clone(), rtype: self.question.0, class: self.question.1 };
        let (rtype, class) = self.record;
        let record = Record { name: self.name.clone(), rtype, class, ttl: 0, rdata: Vec::new() };
        if matches(&question, &record) {
            1
        } else {
            2
        }
    }
}

/// Fields that match and that do not, for pairs of names: by equality, ANY, CNAME.
const PAIRS: [(Fields, Fields); 8] = [
    ((1, 1), (1, 1)),
    ((255, 255), (16, 3)),
    ((1, 1), (5, 1)),
    ((16, 255), (5, 3)),
    ((1, 1), (16, 1)),
    ((5, 1), (1, 1)),
    ((1, 1), (255, 1)),
    ((1, 1), (1, 255)),
];

/// The fixed cases, then random ones until there are `count`.
pub fn cases(seed: u64, count: usize) -> Vec<Case> {
    let random = &mut Random::new(seed);
    let mut cases = Vec::new();
    fields(&mut cases);
    name_pairs(&mut cases, random);
    octets(&mut cases);
    while cases.len() < count {
        cases.push(drawn(random));
    }
    cases
}

fn fields(cases: &mut Vec<Case>) {
    let asked = dotted("a.shop.example");
    let types = [0, 1, 4, 5, 6, 16, 0x0105, 254, 255, 256, 0x0500, 0x05ff, 0xff00, 0xff05, 0xffff];
    let classes = [0, 1, 3, 5, 254, 255, 256, 0x0100, 0x01ff, 0xff00, 0xffff];
    let mut add = |question: Fields, record: Fields| {
        cases.push(Case { asked: asked.clone(), question, name: dotted("A.shop.Example"), record });
    };
    for left in types {
        for right in types {
            add((left, 1), (right, 1));
        }
        add((left, 255), (5, 3));
        add((left, 1), (5, 3));
    }
    for left in classes {
        for right in classes {
            add((1, left), (1, right));
            add((255, left), (5, right));
        }
        add((16, left), (1, left));
    }
}

/// Two names, asked both ways round in every way of `PAIRS`.
fn both(cases: &mut Vec<Case>, left: &[u8], right: &[u8]) {
    for (question, record) in PAIRS {
        cases.push(Case { asked: left.to_vec(), question, name: right.to_vec(), record });
        cases.push(Case { asked: right.to_vec(), question, name: left.to_vec(), record });
    }
}

fn name_pairs(cases: &mut Vec<Case>, random: &mut Random) {
    let good = dotted("a.shop.example");
    for other in ["a.shop.example", "A.SHOP.eXample", "b.shop.example", "shop.example", "b.a.shop.example", ""] {
        both(cases, &good, &dotted(other));
    }
    let star = dotted("*.shop.example");
    for other in ["*.shop.example", "*.SHOP.example", "a.shop.example", "**.shop.example", "shop.example", "*"] {
        both(cases, &star, &dotted(other));
    }
    both(cases, &dotted("*"), &[0]);
    both(cases, &dotted("a.*.example"), &good);
    both(cases, &[0], &[0]);
    both(cases, &name(&[b"x\x01b"]), &name(&[b"x", b"b"]));
    for bad in [&[][..], &[0, 0], &[1, b'a'], &[0xc0, 0], &[0xc0, 12, 0], &[64], &[1, b'a', 0, 0], &[255]] {
        both(cases, &good, bad);
        both(cases, bad, bad);
    }
    for label in [62, 63, 64, 65, 192] {
        let name = name(&[&vec![b'l'; label], b"shop", b"example"]);
        both(cases, &name, &name.to_ascii_uppercase());
    }
    for total in [253, 254, 255, 256, 257] {
        let long = stretched(&dotted("shop.example"), total, b'k');
        both(cases, &long, &respelled(&long, random));
        both(cases, &long, &good);
        let mut other = long.clone();
        other[total - 2] ^= 1;
        both(cases, &long, &other);
    }
}

/// Octets that differ in the bit that parts small letters from capitals, lengths among them, and a name cut at every place.
fn octets(cases: &mut Vec<Case>) {
    let mut add = |left: &[u8], right: &[u8]| {
        cases.push(Case { asked: left.to_vec(), question: (1, 1), name: right.to_vec(), record: (1, 1) });
    };
    for octet in 0..=255u8 {
        add(&name(&[&[b'x', octet]]), &name(&[&[b'x', octet ^ 0x20]]));
        add(&name(&[&[octet]]), &name(&[&[octet]]));
    }
    let mut long = vec![0x21, b'x'];
    long.extend_from_slice(&name(&[&[b'y'; 31]]));
    let mut short = long.clone();
    short[0] = 0x01;
    add(&long, &short);
    let good = dotted("a.shop.example");
    for at in 0..good.len() {
        add(&good, &good[..at]);
        add(&good[at..], &good);
        let mut other = good.clone();
        other[at] ^= 0x20;
        add(&good, &other);
        other[at] = good[at].wrapping_add(1);
        add(&other, &good);
    }
}

fn drawn_name(pool: &Pool, random: &mut Random) -> Vec<u8> {
    let mut octets = pool.any_name(random);
    if random.once_in(12) {
        let at = random.below(octets.len());
        octets[at] = *random.pick(&[0, 1, 63, 64, b'*', b'A', 192]);
    }
    if random.once_in(30) {
        octets.truncate(random.below(octets.len()));
    }
    octets
}

/// A random case; the record's name is mostly the asked one in another spelling.
fn drawn(random: &mut Random) -> Case {
    let pool = Pool::new(&dotted("shop.example"));
    let field = |random: &mut Random| *random.pick(&[0, 1, 1, 5, 5, 16, 255, 255, 254, 256, 0xff05, 0xffff]);
    let asked = drawn_name(&pool, random);
    let name = match random.below(3) {
        0 => drawn_name(&pool, random),
        _ => respelled(&asked, random),
    };
    let question = (field(random), field(random));
    let record = (field(random), if random.once_in(2) { question.1 } else { field(random) });
    Case { asked, question, name, record }
}
