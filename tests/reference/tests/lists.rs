//! Change notifications: which list, in which order and spelling, and that none is shorter.

mod common;

use common::*;
use reference::craft::dotted;
use reference::message::{Question, Subscription};
use reference::notices::{changes, push, read_push, size, Change, Removal, Scope};
use reference::shorter::{least, Least};
use reference::zone::{view, Record};

fn record(name: &str, rtype: u16, class: u16, rdata: &[u8]) -> Record {
    Record { name: dotted(name), rtype, class, ttl: PUT, rdata: rdata.to_vec() }
}

fn asks(all: &[(&str, u16, u16)]) -> Vec<Subscription> {
    let one = |(id, (name, rtype, class)): (usize, &(&str, u16, u16))| Subscription {
        id: id as u16 + 1,
        question: Question { name: dotted(name), rtype: *rtype, class: *class },
    };
    all.iter().enumerate().map(one).collect()
}

fn removal(name: &str, scope: Scope) -> Change {
    Change::Remove(Removal { name: dotted(name), scope })
}

/// The list, after checking that its bytes read back and that no list is shorter.
fn list(old: &[Record], new: &[Record], subscriptions: &[Subscription]) -> Vec<Change> {
    let list = changes(old, new, subscriptions);
    if !list.is_empty() {
        assert_eq!(read_push(&push(&list)).as_ref(), Some(&list));
    }
    let found = least(&view(old, subscriptions), &view(new, subscriptions), new).expect("a small case");
    assert_eq!(found, Least { notices: list.len(), bytes: list.iter().map(size).sum() });
    list
}

#[test]
fn all_classes_only_where_two_classes_leave() {
    let old = [record("a", TXT, 3, &[1]), record("a", A, 1, &[2]), record("a", SRV, 1, &[3])];
    let everything = asks(&[("a", ANY, ANY)]);
    assert_eq!(list(&old, &[], &everything), [removal("a", Scope::AllClasses)]);
    assert_eq!(
        list(&old, &[], &asks(&[("a", ANY, 1)])),
        [removal("a", Scope::AllTypes { class: 1 })],
        "the view decides the width"
    );
    assert_eq!(list(&old, &[], &asks(&[("a", A, 1)])), [removal("a", Scope::Rrset { rtype: A, class: 1 })]);
    let by_class = [removal("a", Scope::Rrset { rtype: TXT, class: 3 }), removal("a", Scope::AllTypes { class: 1 })];
    assert_eq!(list(&old, &[record("a", A, 4, &[])], &everything)[..2], by_class, "another class stays");
}

#[test]
fn all_classes_is_written_with_type_0() {
    let old = [record("a", TXT, 3, &[]), record("a", A, 1, &[])];
    let bytes = push(&changes(&old, &[], &asks(&[("a", ANY, ANY)])));
    assert_eq!(bytes[16..], [1, b'a', 0, 0, 0, 0, 255, 0xff, 0xff, 0xff, 0xfe, 0, 0]);
}

#[test]
fn a_record_outside_the_view_narrows_the_removal() {
    let old = [record("a", TXT, 1, &[1]), record("a", SRV, 1, &[2]), record("a", A, 1, &[3])];
    let seen = asks(&[("a", TXT, 1), ("a", SRV, 1)]);
    assert_eq!(list(&old, &[], &seen), [removal("a", Scope::AllTypes { class: 1 })]);
    let narrow =
        [removal("a", Scope::Rrset { rtype: TXT, class: 1 }), removal("a", Scope::Rrset { rtype: SRV, class: 1 })];
    assert_eq!(list(&old, &old[2..], &seen), narrow, "true of the store, not of the view");
}

#[test]
fn one_record_alone_leaves_as_its_rrset() {
    let old = [record("a", A, 1, &[1, 2, 3]), record("b", A, 1, &[])];
    assert_eq!(
        list(&old, &old[1..], &asks(&[("a", A, 1), ("b", A, 1)])),
        [removal("a", Scope::Rrset { rtype: A, class: 1 })]
    );
}

#[test]
fn single_removals_carry_rdata_even_if_empty() {
    let old = [record("a", A, 1, &[]), record("a", A, 1, &[1])];
    let empty = removal("a", Scope::Single { rtype: A, class: 1, rdata: vec![] });
    assert_eq!(list(&old, &old[1..], &asks(&[("a", A, 1)])), [empty]);
}

#[test]
fn a_replaced_record_keeps_its_rrset() {
    let (old, new) = ([record("a", A, 1, &[1])], [record("a", A, 1, &[2])]);
    let gone = removal("a", Scope::Single { rtype: A, class: 1, rdata: vec![1] });
    assert_eq!(list(&old, &new, &asks(&[("a", A, 1)])), [gone, Change::Add(new[0].clone())]);
}

#[test]
fn removals_go_by_the_first_record_they_cover_and_its_spelling() {
    let old = [record("B", A, 1, &[1]), record("A", TXT, 1, &[1]), record("b", A, 1, &[2]), record("a", SRV, 1, &[1])];
    let seen = asks(&[("a", ANY, 1), ("b", ANY, 1)]);
    let expected = [removal("B", Scope::Rrset { rtype: A, class: 1 }), removal("A", Scope::AllTypes { class: 1 })];
    assert_eq!(list(&old, &[], &seen), expected);
}

#[test]
fn the_first_leaving_record_is_one_of_the_view() {
    let old = [record("A", SRV, 1, &[1]), record("a", TXT, 1, &[1])];
    assert_eq!(list(&old, &[], &asks(&[("A", TXT, 1)])), [removal("a", Scope::Rrset { rtype: TXT, class: 1 })]);
}

#[test]
fn adds_come_last_in_the_new_order_and_spelling() {
    let old = [record("a", A, 1, &[1]), record("a", A, 1, &[2])];
    let mut new = [record("A", A, 1, &[3]), record("A", A, 1, &[1])];
    new[1].ttl = 7;
    let gone = removal("a", Scope::Single { rtype: A, class: 1, rdata: vec![2] });
    let expected = [gone, Change::Add(new[0].clone()), Change::Add(new[1].clone())];
    assert_eq!(list(&old, &new, &asks(&[("a", A, 1)])), expected);
}

#[test]
fn spelling_and_order_are_no_change() {
    let old = [record("a", A, 1, &[1]), record("a", A, 1, &[2])];
    let new = [record("A", A, 1, &[2]), record("A", A, 1, &[1])];
    assert_eq!(list(&old, &new, &asks(&[("a", A, 1)])), []);
}

#[test]
fn cname_matches_any_type_and_an_asterisk_only_itself() {
    let new =
        [record("a", CNAME, 1, &[1]), record("a", TXT, 1, &[1]), record("*", A, 1, &[1]), record("a", CNAME, 3, &[1])];
    assert_eq!(list(&[], &new, &asks(&[("a", A, 1)])), [Change::Add(new[0].clone())]);
    assert_eq!(
        list(&[], &new, &asks(&[("a", CNAME, ANY)])),
        [Change::Add(new[0].clone()), Change::Add(new[3].clone())]
    );
    assert_eq!(list(&[], &new, &asks(&[("*", ANY, ANY)])), [Change::Add(new[2].clone())]);
    assert_eq!(list(&[], &new, &asks(&[("b", ANY, ANY)])), []);
}

#[test]
fn the_search_sees_shorter_lists() {
    let old = [record("a", A, 1, &[1]), record("a", A, 1, &[2]), record("a", TXT, 1, &[2])];
    let name_and_ten = 3 + 10;
    assert_eq!(least(&old, &[], &[]), Some(Least { notices: 1, bytes: name_and_ten }));
    assert_eq!(least(&old, &old[2..], &old[2..]), Some(Least { notices: 1, bytes: name_and_ten }));
    assert_eq!(least(&old, &old[1..], &old[1..]), Some(Least { notices: 1, bytes: name_and_ten + 1 }));
    assert_eq!(least(&old, &old, &old), Some(Least { notices: 0, bytes: 0 }));
    assert_eq!(least(&old[..2], &[], &old[2..]), Some(Least { notices: 1, bytes: name_and_ten }));
}

/// Every old and new store over five records, one with a new TTL, seen through four sets of subscriptions.
#[test]
fn no_list_is_shorter_in_any_small_case() {
    let all = [
        record("a", A, 1, &[1]),
        record("A", A, 1, &[2]),
        record("a", TXT, 1, &[]),
        record("a", A, 3, &[1]),
        record("b", CNAME, 1, &[1]),
    ];
    let seen = [
        asks(&[("a", ANY, ANY), ("b", ANY, ANY)]),
        asks(&[("a", A, ANY), ("b", TXT, 1)]),
        asks(&[("a", ANY, 1)]),
        asks(&[("a", TXT, 1), ("a", A, 3)]),
    ];
    let chosen = |bits: usize| (0..5).filter(|at| bits >> at & 1 == 1).map(|at| all[at].clone()).collect::<Vec<_>>();
    let mut lists = 0;
    for bits in 0..32 * 32 {
        let (old, mut new) = (chosen(bits % 32), chosen(bits / 32));
        if let Some(record) = new.iter_mut().find(|record| record.rdata == [2]) {
            record.ttl = 7;
        }
        for subscriptions in &seen {
            lists += usize::from(!list(&old, &new, subscriptions).is_empty());
        }
    }
    assert_eq!(lists, 1008 + 992 + 960 + 768, "all cases but those where nothing in the view differs");
}

#[test]
fn bytes_that_are_no_push() {
    let good = push(&[Change::Add(record("a", A, 1, &[1]))]);
    assert!(read_push(&good).is_some());
    for kept in 0..good.len() {
        assert_eq!(read_push(&good[..kept]), None);
    }
    assert_eq!(read_push(&[0, 0, 0x30, 0, 0, 0, 0, 0, 0, 0, 0, 0, 0, 0x41, 0, 0]), None, "no notification");
    for (at, byte) in [(1, 1), (2, 0xb0), (3, 1), (11, 1), (13, 0x40), (20, 255), (22, 255), (23, 0x80)] {
        let mut bad = good.clone();
        bad[at] = byte;
        assert_eq!(read_push(&bad), None, "{at}");
    }
}
