//! Pairs of runs: what one session gets in each is told apart where it must be and nowhere else, and random pairs reach
//! what they are for.

use reference::isolation::{compare, Difference};
use reference::narrow::leave_out;
use reference::pair::{lines, text, Runs, Step};
use reference::pair_runs;
use reference::pair_tally::{Group, PairTally};
use reference::pairs::Pairs;
use reference::player::{Language, Player};
use reference::printed;
use std::ops::RangeInclusive;

/// Steps, each with its mark: = for both runs, 1 or 2 for one, * for the open of the chosen session.
fn steps(marked: &str) -> Vec<Step> {
    let one = |line: &str| {
        let (mark, line) = line.split_at(1);
        let runs = match mark {
            "1" => Runs::First,
            "2" => Runs::Second,
            _ => Runs::Both,
        };
        Step { runs, line: line.replace(' ', "\t").into_bytes(), chosen: mark == "*" }
    };
    marked.lines().map(one).collect()
}

/// The comparison of what two programs printed, with spaces for tabs.
fn compared(marked: &str, outputs: [&str; 2]) -> Result<PairTally, Difference> {
    let steps = steps(marked);
    let read = |run: usize| {
        let output: String = outputs[run].lines().map(|line| line.replace(' ', "\t") + "\n").collect();
        printed::read(&steps, run, output.as_bytes()).expect("a whole output")
    };
    compare(&steps, [&read(0), &read(1)])
}

/// Session 1, beside session 0, and one more line in both runs that prints something in each.
fn of_line(line: &str, printed: [&str; 2]) -> Result<PairTally, Difference> {
    let marked = format!("=open 1\n*open 1\n={line}");
    let outputs = printed.map(|printed| format!("open 1 0 -\nopen 1 1 -\n{printed}"));
    compared(&marked, [&outputs[0], &outputs[1]])
}

#[test]
fn what_the_session_gets_is_told_apart() {
    for (line, printed) in [
        ("msg 1 1 00", ["msg 1 1 -", "msg 3 1 -"]),
        ("msg 1 1 00", ["msg 2 1 0102", "msg 2 1 0103"]),
        ("msg 1 1 00", ["msg 2 1 0102", "msg 2 1 010203"]),
        ("msg 1 1 00", ["msg 2 1 0102", "msg 4 1 -"]),
        ("msg 1 1 00", ["msg 12 1 -", "msg 18 1 -"]),
        ("msg 1 1 00", ["msg 1 1 -", "msg 10 1 -"]),
        ("msg 1 1 00", ["msg 5 1 16,3,19,2,21,2,23,4", "msg 5 1 16,3,19,2,21,2,23,5"]),
        ("msg 1 1 00", ["msg 2 1 0102", "msg 2 1 0102 0"]),
        ("close 1 1", ["close 1 1 -", "close 10 1 -"]),
        ("batch 1 00", ["batch 2 1 0102", "batch 2 1 0103"]),
        ("batch 1 00", ["batch 2 1 0102", "batch 1 - -"]),
        ("batch 1 00", ["batch 2 0 0102", "batch 2 0 0102\nbatch 2 1 0102"]),
        ("batch 1 00", ["batch 1 - -", "batch 14 - -"]),
        ("batch 1 00", ["batch 2 0 0102", "batch 14 - -"]),
        ("batch 1 00", ["batch 14 - -", "batch 15 - -"]),
        ("tick 1", ["tick 4 1 -", "tick 1 - -"]),
        ("tick 1", ["tick 4 0 -\ntick 4 1 -", "tick 4 0 -"]),
        ("tick 1", ["tick 1 - -", "tick 11 - -"]),
        ("open 1", ["open 1 2 -", "open 11 - -"]),
        ("msg 1 0 00", ["msg 2 0 0102", "msg 2 1 0102"]),
        ("close 1 0", ["close 1 0 -", "close 2 1 0102"]),
    ] {
        let found = of_line(line, printed).err();
        assert_eq!(found.map(|found| (found.step, found.session)), Some((2, 1)), "{line}: {printed:?}");
        let back = of_line(line, [printed[1], printed[0]]).err().expect("the other way round");
        assert_ne!(back.got[0], back.got[1]);
        for alike in printed {
            assert!(of_line(line, [alike, alike]).is_ok(), "{line}: {alike}");
        }
    }
}

#[test]
fn what_is_left_out_is_no_difference() {
    for (line, printed, what) in [
        ("open 1", ["open 1 2 -", "open 1 0 -"], "open under other numbers"),
        ("open 1", ["open 13 - -", "open 1 0 -"], "open 1 and 13"),
        ("close 1 0", ["close 1 0 -", "close 10 0 -"], "close 1 and 10"),
        ("batch 1 00", ["batch 2 0 0102", "batch 1 - -"], "batch 1 and 2"),
        ("batch 1 00", ["batch 2 0 0102\nbatch 2 1 03", "batch 2 1 03\nbatch 2 2 05"], "batch in another way"),
        ("tick 1", ["tick 4 0 -\ntick 4 1 -", "tick 4 1 -"], "tick ends others"),
        ("tick 1", ["tick 4 0 -", "tick 1 - -"], "tick ends others"),
        ("msg 1 0 00", ["msg 2 0 0102", "msg 4 0 -"], "msg in another way"),
    ] {
        let tally = of_line(line, printed).unwrap_or_else(|found| panic!("{line}: {found:?}"));
        assert_eq!(tally.count(Group::Otherwise, what, None), 1, "{line}: {}", tally.report());
    }
}

#[test]
fn a_line_of_one_run_gives_the_session_nothing() {
    let with = |printed: &str| {
        let first = format!("open 1 0 -\nopen 1 1 -\n{printed}");
        compared("=open 1\n*open 1\n1msg 1 0 00", [&first, "open 1 0 -\nopen 1 1 -"])
    };
    for printed in ["msg 2 0 0102", "msg 4 0 -", "msg 10 0 -", "msg 2 2 0102"] {
        assert!(with(printed).is_ok(), "{printed}");
    }
    let found = with("msg 2 1 0102").err().expect("bytes for the session");
    assert_eq!(found.got, ["msg\t2\t1\t0102\n".to_string(), String::new()]);
}

#[test]
fn nothing_before_the_open_or_behind_the_end_is_compared() {
    let marked = "=open 1\n=open 1\n1msg 1 1 00\n=msg 1 1 00\n=close 2 1\n*open 2\n=msg 2 1 00\n\
        =msg 3 1 00\n1batch 3 \n2open 3\n=msg 4 1 00\n=open 4";
    let first = "open 1 0 -\nopen 1 1 -\nmsg 2 1 01\nmsg 2 1 02\nclose 1 1 -\nopen 1 1 -\nmsg 2 1 07\n\
        msg 4 1 -\nbatch 2 1 09\nmsg 2 1 08\nopen 13 - -";
    let second = "open 1 0 -\nopen 1 1 -\nmsg 2 1 03\nclose 1 1 -\nopen 1 1 -\nmsg 2 1 07\n\
        msg 4 1 -\nopen 1 1 -\nmsg 10 1 -\nopen 1 2 -";
    let tally = compared(marked, [first, second]).expect("no difference");
    assert_eq!(tally.count(Group::End, "abort", None), 1);
    assert_eq!(tally.count(Group::Others, "in one run to its number before its open", None), 1);
    assert_eq!(tally.count(Group::Left, "calls further on", None), 6);
    assert_eq!(tally.count(Group::Left, "calls up to its open", None), 11);
    assert_eq!(tally.calls, 4);
    let found = compared(marked, [first, &second.replace("07", "06")]).err().expect("a difference in its life");
    assert_eq!(found.step, 6);
}

#[test]
fn each_end_is_one() {
    for (line, printed, end) in [
        ("close 1 1", "close 1 1 -", "close"),
        ("tick 1", "tick 4 1 -", "tick"),
        ("msg 1 1 00", "msg 4 1 -", "abort"),
        ("close 1 0", "close 1 0 -", "none"),
        ("tick 1", "tick 4 0 -", "none"),
        ("msg 1 0 00", "msg 4 0 -", "none"),
    ] {
        let tally = of_line(line, [printed, printed]).expect("no difference");
        assert_eq!(tally.count(Group::End, end, None), 1, "{line}: {}", tally.report());
    }
}

#[test]
fn runs_that_differ_in_more_are_compared_no_further() {
    let last = "=msg 9 1 00";
    for (broken, prints) in [
        ("1msg 2 1 00", "msg 1 1 -"),
        ("1batch 2 ", "batch 1 - -"),
        ("1tick 2", "tick 1 - -"),
        ("1open 2", "open 1 2 -"),
        ("1close 2 0", "close 1 0 -"),
        ("1lend 2", "lend 1 - -"),
        ("=tick 0", ""),
    ] {
        let marked = format!("=open 1\n*open 1\n{broken}\n{last}");
        let rest = |prints: &str, answer: u32| format!("open 1 0 -\nopen 1 1 -\n{prints}\nmsg {answer} 1 -");
        let (first, second) = match prints {
            "" => (rest("tick 1 - -", 1), rest("tick 1 - -", 3)),
            _ => (rest(prints, 1), rest("", 3).replace("\n\n", "\n")),
        };
        let tally = compared(&marked, [&first, &second]).expect("nothing is promised any more");
        assert_eq!(tally.count(Group::Left, "pairs that differ in more", None), 1, "{broken}");
    }
}

#[test]
fn a_session_of_two_numbers_is_not_compared() {
    let marked = "=open 1\n1msg 1 0 00\n*open 1\n=msg 1 1 00";
    for second in ["open 1 0 -\nopen 1 2 -\nmsg 1 1 -", "open 1 0 -\nopen 13 - -\nmsg 1 1 -"] {
        let tally = compared(marked, ["open 1 0 -\nmsg 4 0 -\nopen 1 1 -\nmsg 2 1 01", second]).expect("not compared");
        assert_eq!(tally.count(Group::Left, "pairs without one number for the session", None), 1);
        assert_eq!(tally.calls, 0);
    }
}

#[test]
fn what_is_printed_is_read_by_its_lines() {
    let steps = steps("*open 1\n=batch 1 \n=batch 1 \n2tick 1\n=tick 2\n=tick 3");
    assert_eq!(text(&steps, 0), b"open\t1\nbatch\t1\t\n\nbatch\t1\t\ntick\t2\n\ntick\t3\n");
    assert_eq!(lines(&steps, 1).len(), 9);
    let read = |output: &str| printed::read(&steps, 0, output.replace(' ', "\t").as_bytes());
    let whole = "open 1 0 -\nbatch 2 0 01\n? 19 - -\nbatch 2 1 02\ntick 4 0 -\ntick 4 1 -\n? 19 - -\ntick 4 2 -\n";
    let printed = read(whole).expect("whole");
    assert_eq!(printed.iter().map(Vec::len).collect::<Vec<_>>(), [1, 1, 1, 0, 2, 1]);
    for (from, to) in [
        ("? 19 - -\nbatch", "batch"),
        ("batch 2 1 02\n", ""),
        ("open 1 0 -", "open 1 0"),
        ("open 1 0 -", "open x 0 -"),
        ("open 1 0 -", "open 1 x -"),
        ("open", "close"),
        ("tick 4 1", "tick 4 0"),
        ("tick 4 1 -", "tick 1 - -"),
        ("tick 4 2 -\n", "tick 4 2 -\nmore\n"),
        ("tick 4 2 -\n", "tick 4 2 -"),
        ("tick 4 2 -\n", ""),
    ] {
        assert!(read(&whole.replacen(from, to, 1)).is_err(), "{from:?} as {to:?}");
    }
}

/// What this server itself shows in random pairs.
fn in_process(language: Language, seeds: RangeInclusive<u64>) -> PairTally {
    let mut tally = PairTally::default();
    for seed in seeds {
        let made = pair_runs::random(language, seed);
        assert_eq!(made.steps, pair_runs::random(language, seed).steps, "a seed names its pair");
        let printed = [0, 1].map(|run| {
            let mut player = Player::new(language);
            let output: String = lines(&made.steps, run).iter().map(|(_, line)| player.step(line)).collect();
            printed::read(&made.steps, run, output.as_bytes()).expect("a whole output")
        });
        let one = compare(&made.steps, [&printed[0], &printed[1]]);
        tally.add(&one.unwrap_or_else(|found| panic!("seed {seed}: {found:?}")));
    }
    tally
}

fn assert_reached(tally: &PairTally, what: &[(Group, &str, &[u64])]) {
    for (group, name, numbers) in what {
        let missing = |number: &Option<u64>| tally.count(*group, name, *number) == 0;
        let numbers: Vec<Option<u64>> =
            if numbers.is_empty() { vec![None] } else { numbers.iter().copied().map(Some).collect() };
        let missing: Vec<_> = numbers.into_iter().filter(missing).collect();
        assert!(missing.is_empty(), "{group:?} {name} {missing:?} is not in\n{}", tally.report());
    }
}

const WANTED: [(Group, &str, &[u64]); 29] = [
    (Group::Number, "", &[0, 1, 2, 3]),
    (Group::End, "tick", &[]),
    (Group::End, "close", &[]),
    (Group::End, "abort", &[]),
    (Group::End, "none", &[]),
    (Group::Answer, "msg", &[1, 2, 3, 4, 5]),
    (Group::Answer, "close", &[1]),
    (Group::Reply, "", &[0, 1, 2, 9, 11]),
    (Group::Batch, "told it alone", &[]),
    (Group::Batch, "told it and others", &[]),
    (Group::Batch, "told others alone", &[]),
    (Group::Batch, "told nobody", &[]),
    (Group::Batch, "refused", &[14, 15, 16, 17]),
    (Group::Bytes, "PUSHes", &[]),
    (Group::Bytes, "bytes", &[]),
    (Group::Others, "in both", &[]),
    (Group::Others, "only in the first", &[]),
    (Group::Others, "only in the second", &[]),
    (Group::Others, "in one run to its number before its open", &[]),
    (Group::Others, "with an abort", &[]),
    (Group::Others, "one subscription too many", &[]),
    (Group::Others, "subscribing with one of its IDs", &[]),
    (Group::Others, "subscribing to one of its questions", &[]),
    (Group::Others, "right before the tick that ends it", &[]),
    (Group::Otherwise, "open under other numbers", &[]),
    (Group::Otherwise, "open 1 and 13", &[]),
    (Group::Otherwise, "close 1 and 10", &[]),
    (Group::Otherwise, "batch 1 and 2", &[]),
    (Group::Left, "calls further on", &[]),
];

#[test]
fn random_pairs_reach_what_they_are_for() {
    for language in [Language::Replay, Language::Service] {
        let tally = in_process(language, 1..=60);
        assert!(tally.calls < 12_000, "{} calls are not few", tally.calls);
        assert_reached(&tally, &WANTED);
        for left in ["pairs without one number for the session", "pairs that differ in more"] {
            assert_eq!(tally.count(Group::Left, left, None), 0, "{left}");
        }
    }
    let service = in_process(Language::Service, 1..=60);
    assert_reached(&service, &[(Group::Answer, "msg", &[12, 18]), (Group::Batch, "refused", &[12])]);
}

#[test]
fn random_pairs_have_no_line_that_is_too_long() {
    // In this pair a batch would have one.
    assert!(in_process(Language::Replay, 7_298..=7_298).calls > 0);
}

/// This program as the child, with something behind it in a shell.
fn with(behind: &str) -> Pairs {
    let command = format!("'{}' replay {behind}", env!("CARGO_BIN_EXE_reference"));
    Pairs { language: Language::Replay, child: ["sh", "-c", &command].map(str::to_string).to_vec() }
}

fn report(behind: &str) -> String {
    let difference = with(behind).run(1, 20_000).expect("the child starts").err().expect("a difference");
    String::from_utf8_lossy(&difference.report()).into_owned()
}

#[test]
fn the_same_server_does_not_disturb() {
    let agreement = with("").run(1, 3_000).expect("the child starts").ok().expect("no difference");
    assert!(agreement.tally.calls >= 3_000);
    assert!(agreement.report(1).contains("no difference"));
}

#[test]
fn a_disturbance_is_narrowed() {
    // Once any session was aborted, the last byte of every PUSH is another one. The session and one more, a SUBSCRIBE, a
    // batch and the message that aborts, in one run alone, show it, with the opens below the session's number.
    let spoil = r#"| awk '/^msg\t4\t/ { aborted = 1 } aborted && /^batch\t2\t/ { sub("..$", "ee") } { print }'"#;
    let report = report(spoil);
    let lines: Vec<&str> = report.lines().skip_while(|line| !line.contains("so do these")).skip(1).collect();
    let marked = |mark: &str| lines.iter().filter(|line| line.starts_with(mark)).count();
    assert_eq!((marked("*\topen\t"), marked("1\tmsg\t") + marked("2\tmsg\t")), (1, 1), "{report}");
    assert_eq!((marked("1"), marked("2")), (marked("1\tmsg\t"), marked("2\tmsg\t")), "{report}");
    assert_eq!((marked("=\tmsg\t"), marked("=\tbatch\t") <= 2, marked("=\topen\t") <= 3), (1, true, true), "{report}");
    assert!(lines.last().is_some_and(|line| line.starts_with("run 2 batch\t2\t")), "{report}");
}

#[test]
fn nothing_more_can_be_left_out() {
    for wanted in [&[3, 4, 17][..], &[0], &[19], &[0, 19], &[]] {
        let mut items: Vec<usize> = (0..20).collect();
        let shows = |items: &[usize]| Ok(wanted.iter().all(|one| items.contains(one)));
        leave_out(&mut items, shows).expect("no child");
        assert_eq!(items, wanted);
    }
}

#[test]
fn a_child_that_fails_is_a_difference() {
    assert!(report("; echo a fault >&2; exit 3").contains("it ended with exit status: 3, with the words: a fault"));
    assert!(report("; echo more").contains("behind its last line it printed more"));
    assert!(report("| head -n 3").contains("it printed nothing more"));
    assert!(report("| sed s/^batch/patch/").contains("it printed patch"));
}

#[test]
fn a_child_that_shows_nothing_is_an_error() {
    assert!(with(r"| sed 's/^open\t1\t.*/open\t13\t-\t-/'").run(1, 1_000).is_err());
    let missing = Pairs { language: Language::Replay, child: vec!["./no-such-program".to_string()] };
    assert!(missing.run(1, 1).is_err());
}

#[test]
fn bad_arguments() {
    for arguments in [
        "pairs",
        "pairs --language replay --seed 1 --calls 1",
        "pairs --language replay --seed 1 --calls 1 --",
        "pairs --language replay --seed 1 -- true",
        "pairs --language other --seed 1 --calls 1 -- true",
        "pairs --language replay --seed x --calls 1 -- true",
    ] {
        let mut command = std::process::Command::new(env!("CARGO_BIN_EXE_reference"));
        let ended = command.args(arguments.split(' ')).output().expect("it starts");
        assert_eq!(ended.status.code(), Some(2), "{arguments}");
        assert!(String::from_utf8_lossy(&ended.stderr).starts_with("usage: "), "{arguments}");
    }
}
