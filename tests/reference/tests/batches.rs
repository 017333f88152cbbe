//! Batches: their faults in order, allowed values, and what they do to the records.

mod common;

use common::*;
use reference::craft::{dotted, edit};
use reference::server::Server;

fn put(number: u16) -> Vec<u8> {
    a_edit(A, PUT, &number.to_be_bytes())
}

fn answer(server: &mut Server, edits: &[Vec<u8>]) -> u32 {
    let before = server.clone();
    let outcome = batch(server, before.latest, edits);
    if outcome.is_refused() {
        assert_eq!(*server, before);
    }
    outcome.answer.number()
}

#[test]
fn edits_are_read_left_to_right() {
    let (good, wrong, broken) = (put(1), a_edit(ANY, PUT, &[]), vec![1, b'a']);
    let mut server = server();
    assert_eq!(answer(&mut server, &[good.clone(), wrong.clone(), broken.clone()]), 15);
    assert_eq!(answer(&mut server, &[good.clone(), broken.clone()]), 14);
    assert_eq!(answer(&mut server, &[vec![0xc0], wrong]), 14);
    let thirty_two: Vec<Vec<u8>> = (0..32).map(put).collect();
    assert_eq!(answer(&mut server, &[thirty_two.clone(), vec![vec![0xff]]].concat()), 16, "16 before 14");
    assert_eq!(answer(&mut server, &thirty_two), 1);
    assert_eq!(
        answer(&mut server, &[(32..40).map(put).collect::<Vec<_>>(), vec![put(40), broken]].concat()),
        17,
        "17 comes before a later 14"
    );
    assert_eq!(answer(&mut server, &(32..40).map(put).collect::<Vec<_>>()), 1);
    assert_eq!(answer(&mut server, &[put(39)]), 1, "a held record finds 39 others");
    assert_eq!(answer(&mut server, &[put(40)]), 17);
    assert_eq!(answer(&mut server, &[a_edit(A, DELETE, &[0, 0]), put(40)]), 1);
    assert_eq!(answer(&mut server, &[put(41), a_edit(A, DELETE, &[0, 1])]), 17);
    assert_eq!(answer(&mut server, &[a_edit(ANY, PUT, &[7])]), 15, "15 before 17");
    assert_eq!(answer(&mut server, &[]), 1);
}

#[test]
fn values_of_edits() {
    let mut server = server();
    for (ttl, expected) in
        [(0, 1), (0x7fff_ffff, 1), (0x8000_0000, 15), (0xffff_fffd, 15), (0xffff_fffe, 15), (0xffff_ffff, 1)]
    {
        assert_eq!(answer(&mut server, &[a_edit(A, ttl, &[])]), expected, "{ttl:x}");
    }
    for ttl in [PUT, DELETE] {
        for (rtype, class, expected) in
            [(0, 1, 15), (255, 1, 15), (1, 0, 15), (1, 255, 15), (254, 256, 1), (0xffff, 0xffff, 1)]
        {
            assert_eq!(answer(&mut server, &[edit(&dotted("shop.example"), rtype, class, ttl, &[])]), expected);
        }
        for (size, expected) in [(128, 1), (129, 15), (65_535, 15)] {
            assert_eq!(answer(&mut server, &[a_edit(A, ttl, &vec![1; size])]), expected);
        }
        assert_eq!(answer(&mut server, &[edit(&dotted("a.xshop.example"), A, 1, ttl, &[])]), 15);
    }
    let mut cut = a_edit(A, PUT, &[1; 129]);
    cut.pop();
    assert_eq!(answer(&mut server, &[cut]), 14, "14 before 15");
}

#[test]
fn puts_keep_place_and_spelling() {
    let mut server = server();
    answer(&mut server, &[put(1), put(2)]);
    answer(&mut server, &[edit(&dotted("A.SHOP.example"), A, 1, 9, &[0, 1])]);
    assert_eq!((server.records[0].name.clone(), server.records[0].ttl), (dotted("a.shop.example"), 9));
    answer(
        &mut server,
        &[edit(&dotted("A.shop.example"), A, 1, DELETE, &[0, 1]), edit(&dotted("A.SHOP.example"), A, 1, 9, &[0, 1])],
    );
    assert_eq!(server.records.iter().map(|record| record.rdata[1]).collect::<Vec<_>>(), [2, 1]);
    assert_eq!(server.records[1].name, dotted("A.SHOP.example"));
    assert_eq!(answer(&mut server, &[a_edit(A, DELETE, &[7])]), 1, "deleting an absent record is harmless");
}
