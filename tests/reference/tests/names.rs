//! Names: the limits, sameness, enclosing, and the shape of the cases written for others.

use reference::craft::{dotted, name, stretched};
use reference::name::{ask_same, ask_within, read};
use reference::name_cases;

#[test]
fn the_longest_label_has_63_octets() {
    assert_eq!(read(&name(&[&[b'a'; 63]]), 0), Some(65));
    assert_eq!(read(&name(&[&[b'a'; 64]]), 0), None);
    assert_eq!(read(&name(&[&[b'a'; 192]]), 0), None);
}

#[test]
fn the_longest_name_has_255_octets() {
    for total in [3, 64, 65, 66, 67, 128, 129, 130, 254, 255] {
        assert_eq!(read(&stretched(&[0], total, b'n'), 0), Some(total), "{total}");
    }
    for total in [256, 257, 300] {
        let octets = stretched(&[0], total, b'n');
        assert_eq!(octets.len(), total);
        assert_eq!(read(&octets, 0), None, "{total}");
    }
}

#[test]
fn a_name_needs_its_zero_octet() {
    let good = dotted("a.shop.example");
    assert_eq!(read(&good, 0), Some(16));
    for kept in 0..good.len() {
        assert_eq!(read(&good[..kept], 0), None);
    }
}

#[test]
fn a_name_is_read_at_its_place() {
    let mut octets = vec![9; 5];
    octets.extend_from_slice(&dotted("ab"));
    octets.extend_from_slice(&[7, 7]);
    assert_eq!(read(&octets, 5), Some(4));
    assert_eq!(read(&octets, 8), Some(1));
    assert_eq!(read(&octets, 9), None);
    assert_eq!(read(&octets, 11), None);
    assert_eq!(read(&octets, usize::MAX), None);
}

#[test]
fn only_letters_compare_without_case() {
    for octet in 0..=255u8 {
        let other = octet ^ 0x20;
        let expected = (65..=90).contains(&octet) || (97..=122).contains(&octet);
        assert_eq!(ask_same(&name(&[&[octet]]), &name(&[&[other]])), Some(expected), "{octet}");
        assert_eq!(ask_same(&name(&[&[octet]]), &name(&[&[octet]])), Some(true));
    }
}

#[test]
fn length_octets_never_fold() {
    let mut long = vec![0x21, b'x'];
    long.extend_from_slice(&name(&[&[b'y'; 31]]));
    let mut short = long.clone();
    short[0] = 0x01;
    assert_eq!(read(&long, 0), Some(35));
    assert_eq!(read(&short, 0), Some(35));
    assert_eq!(ask_same(&long, &short), Some(false));
}

#[test]
fn a_name_with_octets_after_it_is_not_whole() {
    assert_eq!(ask_same(&[0, 0], &[0]), None);
    assert_eq!(ask_same(&[0], &[]), None);
    assert_eq!(ask_within(&[0], &[1, b'a']), None);
}

#[test]
fn enclosing_is_at_a_label_boundary() {
    let zone = dotted("shop.example");
    let yes = ["shop.example", "a.shop.example", "b.a.SHOP.eXample"];
    let no = ["a.xshop.example", "example", "", "shop.example.a", "shop.examples"];
    for below in yes {
        assert_eq!(ask_within(&zone, &dotted(below)), Some(true), "{below}");
        assert_eq!(ask_within(&[0], &dotted(below)), Some(true));
    }
    for outside in no {
        assert_eq!(ask_within(&zone, &dotted(outside)), Some(false), "{outside}");
    }
    assert_eq!(ask_within(&zone, &name(&[b"\x04shop\x07example\x00"])), Some(false));
    assert_eq!(ask_within(&zone, &name(&[b"x\x04shop\x07example"])), Some(false));
    assert_eq!(ask_within(&[1, 1, 0], &[2, 1, 1, 0]), Some(false));
}

#[test]
fn the_cases_keep_to_their_form() {
    let cases = name_cases::cases(1);
    let input: Vec<&str> = cases.input.lines().collect();
    assert!((400..=800).contains(&input.len()));
    assert_eq!(input.len(), cases.output.lines().count());
    for (line, answer) in input.iter().zip(cases.output.lines()) {
        assert_eq!(line.split('\t').next(), answer.split('\t').next());
        assert!(line.split('\t').skip(1).all(|field| field.len() <= 600));
    }
}
