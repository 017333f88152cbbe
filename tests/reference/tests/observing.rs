//! The observer finds what a wrong server would write.

mod common;

use common::*;
use reference::call::{Answer, Call, Outcome};
use reference::craft::{dotted, subscribe, unsubscribe};
use reference::notices::{push, Change, Removal, Scope};
use reference::observer::Observer;
use reference::selftest;
use reference::server::Server;

/// A server and an observer that saw all its calls: two A records and a TXT record, all subscribed to by session 0.
fn watched() -> (Server, Observer) {
    let (mut server, mut observer) = (server(), Observer::default());
    for call in [
        Call::Open { time: 0 },
        Call::Batch { time: 0, edits: [a_edit(A, PUT, &[1]), a_edit(A, PUT, &[2]), a_edit(TXT, PUT, &[3])].concat() },
        Call::Message { time: 0, session: 0, bytes: subscribe(1, &dotted("a.shop.example"), ANY, ANY) },
    ] {
        let outcome = server.call(&call);
        observer.observe(&call, &outcome).expect("a good server");
    }
    (server, observer)
}

fn framed(changes: &[Change]) -> Vec<u8> {
    let message = push(changes);
    [(message.len() as u16).to_be_bytes().to_vec(), message].concat()
}

/// What the observer says when a batch's outcome is changed.
fn with_changed(edits: Vec<u8>, change: impl Fn(&mut Outcome)) -> Result<(), String> {
    let (mut server, mut observer) = watched();
    let call = Call::Batch { time: 0, edits };
    let mut outcome = server.call(&call);
    change(&mut outcome);
    observer.observe(&call, &outcome).map(|_| ())
}

fn removal(scope: Scope) -> Change {
    Change::Remove(Removal { name: dotted("a.shop.example"), scope })
}

fn delete_both_a() -> Vec<u8> {
    [a_edit(A, DELETE, &[1]), a_edit(A, DELETE, &[2])].concat()
}

#[test]
fn a_good_batch_passes() {
    assert_eq!(with_changed(delete_both_a(), |_| ()), Ok(()));
}

#[test]
fn a_missing_push_is_found() {
    let silent = |outcome: &mut Outcome| *outcome = Outcome::of(Answer::Done);
    assert!(with_changed(delete_both_a(), silent).is_err());
}

#[test]
fn longer_untrue_and_reordered_lists_are_found() {
    let single = |octet: u8| removal(Scope::Single { rtype: A, class: 1, rdata: vec![octet] });
    let rrset = removal(Scope::Rrset { rtype: A, class: 1 });
    for list in [
        vec![single(1), single(2)],
        vec![removal(Scope::AllClasses)],
        vec![removal(Scope::AllTypes { class: 1 })],
        vec![rrset.clone(), rrset.clone()],
    ] {
        assert!(with_changed(delete_both_a(), |outcome| outcome.output[0] = framed(&list)).is_err(), "{list:?}");
    }
    assert!(with_changed(delete_both_a(), |outcome| outcome.output[0] =
        [framed(&[single(1)]), framed(&[single(2)])].concat())
    .is_err());
    assert_eq!(
        with_changed(delete_both_a(), |outcome| outcome.output[0] = framed(std::slice::from_ref(&rrset))),
        Ok(())
    );
    let delete_all = [delete_both_a(), a_edit(TXT, DELETE, &[3])].concat();
    let text = removal(Scope::Rrset { rtype: TXT, class: 1 });
    for list in [vec![rrset.clone(), text.clone()], vec![text, rrset], vec![removal(Scope::AllClasses)]] {
        assert!(with_changed(delete_all.clone(), |outcome| outcome.output[0] = framed(&list)).is_err(), "{list:?}");
    }
    assert_eq!(
        with_changed(delete_all, |outcome| outcome.output[0] = framed(&[removal(Scope::AllTypes { class: 1 })])),
        Ok(())
    );
}

#[test]
fn wrong_spelling_is_found() {
    let loud = Change::Remove(Removal { name: dotted("A.shop.example"), scope: Scope::Rrset { rtype: A, class: 1 } });
    assert!(with_changed(delete_both_a(), |outcome| outcome.output[0] = framed(std::slice::from_ref(&loud))).is_err());
}

#[test]
fn each_flipped_bit_of_a_push_is_found() {
    let count = {
        let (mut server, _) = watched();
        server.call(&Call::Batch { time: 0, edits: a_edit(A, 9, &[1]) }).output[0].len()
    };
    for bit in 0..8 * count {
        let flip = |outcome: &mut Outcome| outcome.output[0][bit / 8] ^= 1 << (bit % 8);
        assert!(with_changed(a_edit(A, 9, &[1]), flip).is_err(), "bit {bit}");
    }
}

#[test]
fn wrong_answers_about_sessions_are_found() {
    let (_, observer) = watched();
    let says = |call: &Call, outcome: Outcome| observer.clone().observe(call, &outcome).map(|_| ());
    let opened = |number| Outcome { opened: Some(number), ..Outcome::of(Answer::Done) };
    assert_eq!(says(&Call::Open { time: 0 }, opened(1)), Ok(()));
    assert!(says(&Call::Open { time: 0 }, opened(0)).is_err());
    assert!(says(&Call::Open { time: 0 }, opened(2)).is_err());
    assert!(says(&Call::Close { time: 0, session: 1 }, Outcome::of(Answer::Done)).is_err());
    let no_session = Outcome::refused(reference::call::Refusal::NoSession);
    assert!(says(&Call::Close { time: 0, session: 0 }, no_session.clone()).is_err());
    assert_eq!(says(&Call::Close { time: 0, session: 1 }, no_session), Ok(()));
    let all_open = Outcome::refused(reference::call::Refusal::AllOpen);
    assert!(says(&Call::Open { time: 0 }, all_open).is_err());
}

#[test]
fn a_subscribe_without_its_records_is_found() {
    let (mut server, mut observer) = watched();
    let call = Call::Message { time: 0, session: 0, bytes: subscribe(2, &dotted("A.shop.example"), A, 1) };
    let mut outcome = server.call(&call);
    outcome.output[0].truncate(14);
    assert!(observer.observe(&call, &outcome).is_err());
}

#[test]
fn after_unsubscribe_the_client_keeps_what_others_match() {
    let (mut server, mut observer) = watched();
    let steps = [subscribe(2, &dotted("A.shop.example"), A, 1), unsubscribe(1), unsubscribe(9)];
    for (bytes, left) in steps.into_iter().zip([3, 2, 2]) {
        let call = Call::Message { time: 0, session: 0, bytes };
        let outcome = server.call(&call);
        observer.observe(&call, &outcome).expect("a good server");
        assert_eq!(observer.clients[0].as_ref().map(|client| client.records.len()), Some(left));
    }
}

#[test]
fn random_runs_agree() {
    let counts = selftest::run(7, 6_000).map_err(|failure| failure.report()).expect("no fault");
    assert_eq!(counts.calls, 6_000);
    for answer in [1, 2, 3, 4, 5, 10, 11, 13, 14, 15, 16, 17, 18] {
        assert!(counts.answers.get(&answer).is_some_and(|count| *count > 0), "answer {answer} never came");
    }
    assert!(counts.singles > 0 && counts.rrsets > 0 && counts.classes > 0 && counts.names > 0 && counts.searched > 100);
}
