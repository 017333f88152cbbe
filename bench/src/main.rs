//! bench: measures the servers side by side. The output is lines of fields parted by tabs, for `report.py`.

use bench::cases::{growth, table, Case};
use bench::measure::{check, quantile, running, times, Run};
use bench::server::Server;
use std::process::ExitCode;

const USAGE: &str =
    "usage: bench times table|growth [ROUNDS]   median nanoseconds a call, and of the ratios to the first server
       bench count table|growth SERVER     each case's work ten times, for callgrind; how many calls that is
       bench one SERVER STATE CALL CYCLES  one case's work, for callgrind
servers: proved, plain, incremental, reference";

/// How long one sample of a round takes.
const SAMPLE_NS: f64 = 400_000.0;
/// How often a case's work is repeated for counting.
const CYCLES: u32 = 10;

type Start = for<'a> fn(&'a Case) -> Box<dyn Run + 'a>;

/// The servers; ratios are of the first to each.
const SERVERS: &[(&str, Start)] = &[
    #[cfg(feature = "proved")]
    ("proved", |case| running::<bench::proved::Proved>(case)),
    #[cfg(feature = "before")]
    ("before", |case| running::<bench::proved::Before>(case)),
    ("plain", |case| running::<Server<false>>(case)),
    ("incremental", |case| running::<Server<true>>(case)),
    ("reference", |case| running::<reference::server::Server>(case)),
];

fn cases(name: &str) -> Option<Vec<Case>> {
    match name {
        "table" => Some(table()),
        "growth" => Some(growth()),
        _ => None,
    }
}

fn print_times(cases: &[Case], rounds: usize) {
    for case in cases {
        let mut runs: Vec<Box<dyn Run>> = SERVERS.iter().map(|(_, start)| start(case)).collect();
        check(case, &mut runs);
        let found = times(case, &mut runs, rounds, SAMPLE_NS);
        for (index, (server, _)) in SERVERS.iter().enumerate() {
            let ratios: Vec<f64> = found[0].iter().zip(&found[index]).map(|(first, other)| first / other).collect();
            let parts = [0.25, 0.5, 0.75].map(|part| quantile(&ratios, part));
            let median = quantile(&found[index], 0.5);
            println!(
                "{}\t{}\t{server}\t{median:.1}\t{:.3}\t{:.3}\t{:.3}",
                case.state, case.call, parts[1], parts[0], parts[2]
            );
        }
    }
}

fn print_counts(cases: &[Case], start: Start) {
    for case in cases {
        let mut run = start(case);
        run.trace();
        run.trace();
        run.repeat(CYCLES);
        println!("{}\t{}\t{}\t{}", case.state, case.call, run.name(), CYCLES as usize * case.work.len());
    }
}

fn print_one(start: Start, state: &str, call: &str, cycles: u32) -> bool {
    let cases: Vec<Case> = table().into_iter().chain(growth()).collect();
    let Some(case) = cases.iter().find(|case| case.state == state && case.call == call) else {
        cases.iter().for_each(|case| eprintln!("{}\t{}", case.state, case.call));
        return false;
    };
    let mut run = start(case);
    run.trace();
    run.trace();
    run.repeat(cycles);
    println!("{}\t{}\t{}\t{}", case.state, case.call, run.name(), cycles as usize * case.work.len());
    true
}

fn server(name: &str) -> Option<Start> {
    SERVERS.iter().find(|(server, _)| *server == name).map(|(_, start)| *start)
}

fn run(words: &[&str]) -> Option<bool> {
    match words {
        ["times", which] => print_times(&cases(which)?, 41),
        ["times", which, rounds] => print_times(&cases(which)?, rounds.parse().ok().filter(|rounds| *rounds > 0)?),
        ["count", which, name] => print_counts(&cases(which)?, server(name)?),
        ["one", name, state, call, cycles] => return Some(print_one(server(name)?, state, call, cycles.parse().ok()?)),
        _ => return None,
    }
    Some(true)
}

fn main() -> ExitCode {
    let words: Vec<String> = std::env::args().skip(1).collect();
    match run(&words.iter().map(String::as_str).collect::<Vec<_>>()) {
        Some(true) => ExitCode::SUCCESS,
        Some(false) => {
            eprintln!("bench: no such case; the cases are those above");
            ExitCode::FAILURE
        }
        None => {
            eprintln!("{USAGE}");
            ExitCode::from(2)
        }
    }
}
