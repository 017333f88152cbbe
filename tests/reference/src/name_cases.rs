//! Cases for reading, comparing and enclosing names, as lines of input and of expected output.

use crate::craft::{dotted, name, respelled, stretched};
use crate::random::Random;
use crate::{hex, name as names};

/// Input lines and, for each, the line that must come out.
#[derive(Default)]
pub struct Cases {
    pub input: String,
    pub output: String,
}

impl Cases {
    fn read(&mut self, place: usize, octets: &[u8]) {
        self.input += &format!("read\t{place}\t{}\n", hex::write(octets));
        match names::read(octets, place) {
            Some(length) => self.output += &format!("read\t{length}\n"),
            None => self.output += "read\t-\n",
        }
    }

    fn same(&mut self, left: &[u8], right: &[u8]) {
        self.input += &format!("same\t{}\t{}\n", hex::write(left), hex::write(right));
        self.output += &format!("same\t{}\n", word(names::ask_same(left, right)));
    }

    fn within(&mut self, zone: &[u8], name: &[u8]) {
        self.input += &format!("within\t{}\t{}\n", hex::write(zone), hex::write(name));
        self.output += &format!("within\t{}\n", word(names::ask_within(zone, name)));
    }
}

fn word(answer: Option<bool>) -> &'static str {
    match answer {
        Some(true) => "yes",
        Some(false) => "no",
        None => "-",
    }
}

pub fn cases(seed: u64) -> Cases {
    let mut cases = Cases::default();
    let random = &mut Random::new(seed);
    read_limits(&mut cases);
    read_places(&mut cases);
    read_random(&mut cases, random);
    same_octets(&mut cases);
    same_shapes(&mut cases, random);
    within_shapes(&mut cases);
    within_random(&mut cases, random);
    cases
}

/// Names of exactly so many octets, cut into labels in several ways.
fn of_length(total: usize) -> Vec<Vec<u8>> {
    let mut ones = if total % 2 == 1 { vec![0] } else { name(&[b"ab"]) };
    while ones.len() < total {
        ones.splice(0..0, [1, b'x']);
    }
    vec![stretched(&[0], total, b'n'), stretched(&dotted("shop.example"), total, b'q'), ones]
}

fn read_limits(cases: &mut Cases) {
    for total in [2 + 1, 63 + 2, 64 + 2, 253, 254, 255, 256, 257, 258, 300] {
        for octets in of_length(total) {
            cases.read(0, &octets);
        }
    }
    for label in [1, 2, 31, 32, 62, 63, 64, 65, 127, 128, 191, 192, 193, 254, 255usize] {
        cases.read(0, &name(&[&vec![b'l'; label]]));
        cases.read(0, &name(&[b"a", &vec![b'm'; label]]));
        cases.read(0, &name(&[&vec![b'l'; label]])[..=label]);
        cases.read(0, &name(&[&vec![b'l'; label]])[..label]);
        cases.read(0, &[label as u8, 0]);
    }
    cases.read(0, &[0xc0, 12, 0]);
    cases.read(0, &[1, b'a', 0xc0, 0]);
    let longest = stretched(&dotted("shop.example"), 255, b'n');
    for kept in [0, 1, 63, 64, 65, 128, 253, 254, 255] {
        cases.read(0, &longest[..kept]);
    }
    for before in [1, 2, 44, 45] {
        let mut octets = vec![3; before];
        octets.extend_from_slice(&longest);
        cases.read(before, &octets);
        cases.read(before - 1, &octets);
        cases.read(0, &octets);
    }
}

fn read_places(cases: &mut Cases) {
    let good = dotted("a.shop.example");
    let nested = name(&[b"\x02ab", b"\x01c\x00", b"\x00\x00", b"d"]);
    for octets in [&good, &nested] {
        for place in 0..octets.len() + 3 {
            cases.read(place, octets);
            if place <= octets.len() {
                cases.read(0, &octets[..place]);
            }
        }
        let mut followed = octets.clone();
        followed.extend_from_slice(&[0, 1, 0, 1, 0xff]);
        cases.read(0, &followed);
        cases.read(octets.len(), &followed);
        cases.read(octets.len() + 4, &followed);
    }
    for place in [0, 1, 2, 300, 65_535, 1_000_000] {
        cases.read(place, &[]);
        cases.read(place, &[0]);
    }
}

fn read_random(cases: &mut Cases, random: &mut Random) {
    for _ in 0..80 {
        let length = random.below(40);
        let octets: Vec<u8> = (0..length).map(|_| if random.once_in(3) { 0 } else { random.below(9) as u8 }).collect();
        cases.read(random.below(length + 2), &octets);
    }
    for _ in 0..20 {
        let length = 200 + random.below(101);
        let octets: Vec<u8> = (0..length).map(|_| random.below(12) as u8 + 1).collect();
        cases.read(random.below(20), &octets);
    }
    for _ in 0..20 {
        let length = random.below(100);
        cases.read(random.below(length + 1), &random.bytes(length));
    }
}

/// Every pair of octets that differ in the bit that parts small letters from capitals.
fn same_octets(cases: &mut Cases) {
    for octet in 0..=255u8 {
        if octet & 0x20 == 0 {
            cases.same(&name(&[&[b'x', octet]]), &name(&[&[b'x', octet | 0x20]]));
        }
    }
    for (left, right) in
        [(b'0', b'1'), (b'a', b'b'), (b'A', b'b'), (b'a', 0xe1), (b'A', 0xc1), (b'z', 0x7b), (b'A', b'@')]
    {
        cases.same(&name(&[&[left]]), &name(&[&[right]]));
    }
}

fn same_shapes(cases: &mut Cases, random: &mut Random) {
    let good = dotted("a.shop.example");
    for other in [
        "a.shop.example",
        "A.SHOP.EXAMPLE",
        "a.Shop.exAmple",
        "shop.example",
        "b.shop.example",
        "a.shop.examples",
        "ashop.example",
        "",
    ] {
        cases.same(&good, &dotted(other));
        cases.same(&dotted(other), &good);
    }
    for at in 0..good.len() {
        let mut other = good.clone();
        other[at] ^= 0x20;
        cases.same(&good, &other);
        other[at] = good[at].wrapping_add(1);
        cases.same(&other, &good);
    }
    // Length octets that differ only in the bit that parts small letters from capitals.
    let inner = name(&[&[b'y'; 31]]);
    let mut long = vec![0x21, b'x'];
    long.extend_from_slice(&inner);
    let mut short = long.clone();
    short[0] = 0x01;
    cases.same(&long, &short);
    cases.same(&name(&[b"x\x01b"]), &name(&[b"x", b"b"]));
    cases.same(&[0], &[0]);
    for bad in [&[][..], &[0, 0], &[1, b'a'], &[0xc0, 0], &[64], &[1, b'a', 0, 0]] {
        cases.same(bad, &good);
        cases.same(&good, bad);
        cases.same(bad, bad);
    }
    for total in [254, 255, 256] {
        let name = stretched(&dotted("shop.example"), total, b'k');
        cases.same(&name, &respelled(&name, random));
        let mut other = name.clone();
        other[total - 2] ^= 1;
        cases.same(&name, &other);
    }
}

fn within_shapes(cases: &mut Cases) {
    let zone = dotted("shop.example");
    let swallowed = name(&[b"\x04shop\x07example\x00"]);
    let swallowed_too = name(&[b"x\x04shop\x07example"]);
    for below in
        ["shop.example", "a.shop.example", "b.a.shop.example", "SHOP.example", "x.SHOP.EXAMPLE", "*.shop.example"]
    {
        cases.within(&zone, &dotted(below));
        cases.within(&dotted(below), &zone);
        cases.within(&dotted("Shop.exAMPLE"), &dotted(below));
        cases.within(&[0], &dotted(below));
        cases.within(&dotted(below), &[0]);
    }
    for outside in [
        "a.xshop.example",
        "xshop.example",
        "example",
        "",
        "shop.examples",
        "shop.example.a",
        "a.shop.exampl",
        "ashop.example",
    ] {
        cases.within(&zone, &dotted(outside));
        cases.within(&dotted(outside), &zone);
        cases.within(&[0], &dotted(outside));
    }
    cases.within(&zone, &swallowed);
    cases.within(&zone, &swallowed_too);
    cases.within(&[1, 1, 0], &[2, 1, 1, 0]);
    cases.within(&[1, 1, 0], &[1, 1, 1, 1, 0]);
    cases.within(&[1, 1, 0], &[3, 1, 1, 1, 0]);
    cases.within(&dotted("@.z"), &dotted("a.`.z"));
    cases.within(&dotted("[.z"), &dotted("a.{.z"));
    for bad in [&[][..], &[0, 0], &[1, b'a'], &[0xc0, 0], &[64]] {
        cases.within(&zone, bad);
        cases.within(bad, &zone);
        cases.within(bad, &[0]);
    }
    within_limits(cases, &zone);
}

fn within_limits(cases: &mut Cases, zone: &[u8]) {
    for total in [254, 255, 256] {
        let long = stretched(zone, total, b'k');
        cases.within(zone, &long);
        cases.within(&long, zone);
        cases.within(&long, &long);
        cases.within(&long[64..], &long);
        cases.within(&long[63..], &long);
        cases.within(&[0], &long);
    }
}

fn within_random(cases: &mut Cases, random: &mut Random) {
    let labels: [&[u8]; 6] = [b"a", b"b", b"A", b"ab", b"\x01a", b"\x01"];
    let some_name = |random: &mut Random| {
        let count = random.below(4);
        name(&(0..count).map(|_| *random.pick(&labels)).collect::<Vec<_>>())
    };
    for _ in 0..60 {
        let (zone, name) = (some_name(random), some_name(random));
        cases.within(&zone, &name);
        cases.same(&zone, &name);
    }
}
