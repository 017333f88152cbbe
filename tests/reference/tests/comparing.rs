//! The comparison finds what differs, narrows it, and agrees with itself.

use reference::compare::Comparison;
use reference::line_runs::Run;
use reference::player::{Language, Player};

/// A comparison with a shell command as the child.
fn with(command: &str) -> Comparison {
    Comparison { language: Language::Replay, child: ["sh", "-c", command].map(str::to_string).to_vec() }
}

fn own(arguments: &str) -> String {
    format!("'{}' {arguments}", env!("CARGO_BIN_EXE_reference"))
}

fn report(command: &str) -> String {
    let difference = with(command).run(1, 3_000).expect("the child starts").err().expect("a difference");
    String::from_utf8_lossy(&difference.report()).into_owned()
}

#[test]
fn the_same_server_agrees() {
    let agreement = with(&own("replay")).run(1, 3_000).expect("the child starts").ok().expect("no difference");
    assert!(agreement.tally.calls() >= 3_000);
    assert!(agreement.report(1).contains("no difference"));
}

#[test]
fn runs_reach_what_lines_can() {
    let mut tally = reference::tally::Tally::default();
    for seed in 1..=40 {
        tally.add(&Run::random(Language::Replay, seed, 1_000).tally);
    }
    let report = tally.report();
    for line in [
        "answers to open: 1: , 11: , 13: ",
        "answers to close: 1: , 10: , 11: ",
        "answers to msg: 1: , 2: , 3: , 4: , 5: , 10: , 11: ",
        "answers to batch: 1: , 2: , 11: , 14: , 15: , 16: , 17: ",
        "answers to tick: 1: , 11: ",
        "answers to ?: 19: ",
        "replies by RCODE: 0: , 1: , 2: , 9: , 11: ",
        // A reply of 14 bytes with its prefix, and the largest PUSH with its own.
        &format!("the most bytes for a session: {}", 14 + 2 + 15_736),
        "adds , of all classes , of all types , of an RRset , removals of one record ",
    ] {
        if report.lines().any(|other| other == line) {
            continue;
        }
        // The counts are left out of the report's lines, the numbers that end in a colon are kept.
        let bare: Vec<String> = report.lines().map(without_counts).collect();
        assert!(bare.iter().any(|other| other.contains(line.trim_end())), "{line:?} is not in\n{report}");
    }
}

fn without_counts(line: &str) -> String {
    line.split(' ')
        .map(|word| {
            if word.trim_end_matches(',').parse::<u64>().is_ok() {
                word.trim_start_matches(char::is_numeric)
            } else {
                word
            }
        })
        .collect::<Vec<_>>()
        .join(" ")
}

#[test]
fn a_difference_is_narrowed() {
    // RCODE 9 becomes 5: one open session and one SUBSCRIBE outside the zone show it.
    let report = report(&format!("{} | sed s/b009/b005/", own("replay")));
    assert!(report.contains("so do these 2, of which none can be left out:\nopen\t"), "{report}");
    assert!(report.contains("b009000000000000000000020004000493e0\nfound    msg\t2\t"), "{report}");
}

#[test]
fn a_child_that_fails_is_a_difference() {
    let silent = report("echo a fault >&2; exit 3");
    assert!(silent.contains("nothing more; it ended with exit status: 3, with the words: a fault"), "{silent}");
    assert!(report(&format!("{}; exit 3", own("replay"))).contains("it ended with exit status: 3"));
    assert!(report(&format!("{}; echo more", own("replay"))).contains("found    more"));
    assert!(report(&format!("{} | head -n 5", own("replay"))).contains("nothing more"));
}

#[test]
fn a_child_that_keeps_back_its_output_and_dies() {
    // All output is lost where a tick stands in the input.
    let keep = "f=$(mktemp); trap 'rm -f $f' EXIT; cat >$f; grep -q ^tick $f && exit 9;";
    let report = report(&format!("{keep} {} <$f", own("replay")));
    assert!(report.contains("so do these 1, of which none can be left out:\ntick\t"), "{report}");
}

#[test]
fn a_child_that_cannot_start_is_an_error() {
    let missing = Comparison { language: Language::Replay, child: vec!["./no-such-program".to_string()] };
    assert!(missing.run(1, 1).is_err());
}

#[test]
fn the_service_can_be_asked_for_more() {
    let mut player = Player::new(Language::Service);
    let mut say = |line: &str| player.step(line.as_bytes());
    assert_eq!(say("start\t0161"), "start\t20\t-\t-\n");
    assert_eq!(say("start\t016100"), "start\t1\t-\t-\n");
    assert_eq!(say("open\t5"), "open\t1\t0\t-\n");
    assert_eq!(say("lend\t65535"), "lend\t1\t-\t-\n");
    assert_eq!(say("batch\t4\t"), "batch\t12\t-\t-\n");
    assert_eq!(say("lend\t65536"), "lend\t1\t-\t-\n");
    assert_eq!(say("batch\t4\t"), "batch\t11\t-\t-\n");
    assert_eq!(say(&format!("msg\t5\t0\t{}", "00".repeat(65_536))), "msg\t18\t0\t-\n");
    let reconfirm = "msg\t5\t0\t0000300000000000000000000043000a0161000001000101020304";
    assert_eq!(say(&reconfirm.replace("000a", "000b")), "msg\t5\t0\t16,3,19,2,21,2,23,4\n");
}
