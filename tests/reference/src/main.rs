//! The command line.

use reference::{
    bench_script, hex, kind_cases, match_cases, name_cases, push_cases, reach, replay, script, selftest, vectors,
};
use reference::{compare::Comparison, pairs::Pairs, player::Language};
use std::collections::HashMap;
use std::io::{self, BufWriter, Read, Write};
use std::process::ExitCode;

const USAGE: &str = "usage: reference replay | \
compare --language replay|service --seed N --calls N -- PROGRAM [ARGUMENT]... | \
pairs --language replay|service --seed N --calls N -- PROGRAM [ARGUMENT]... | \
script --seed N --lines N | kinds --seed N --count N | \
matches --seed N --count N | names --seed N --in FILE --out FILE | pushes --seed N --in FILE --out FILE | \
selftest --seed N --calls N | bench --in FILE --out FILE | vectors --seed N --in FILE --out FILE | \
reach --in FILE --out FILE";

/// What stopped a sub-command.
enum Stop {
    Usage,
    Io(io::Error),
}

impl From<io::Error> for Stop {
    fn from(error: io::Error) -> Stop {
        Stop::Io(error)
    }
}

/// The arguments after the sub-command: pairs of `--option value`.
struct Options(HashMap<String, String>);

impl Options {
    fn read(arguments: &[String], allowed: &[&str]) -> Result<Options, Stop> {
        let mut found = HashMap::new();
        for pair in arguments.chunks(2) {
            let [option, value] = pair else {
                return Err(Stop::Usage);
            };
            if !allowed.contains(&option.as_str()) || found.insert(option.clone(), value.clone()).is_some() {
                return Err(Stop::Usage);
            }
        }
        match found.len() == allowed.len() {
            true => Ok(Options(found)),
            false => Err(Stop::Usage),
        }
    }

    fn number(&self, option: &str) -> Result<u64, Stop> {
        self.0[option].parse().map_err(|_| Stop::Usage)
    }
}

fn kinds(options: Options) -> Result<ExitCode, Stop> {
    let mut out = BufWriter::new(io::stdout().lock());
    for (message, kind) in kind_cases::cases(options.number("--seed")?, options.number("--count")? as usize) {
        writeln!(out, "{}\t{kind}", hex::write(&message))?;
    }
    out.flush()?;
    Ok(ExitCode::SUCCESS)
}

fn matches(options: Options) -> Result<ExitCode, Stop> {
    let mut out = BufWriter::new(io::stdout().lock());
    for case in match_cases::cases(options.number("--seed")?, options.number("--count")? as usize) {
        let ((qtype, qclass), (rtype, class)) = (case.question, case.record);
        write!(out, "{}\t{qtype}\t{qclass}\t", hex::write(&case.asked))?;
        writeln!(out, "{}\t{rtype}\t{class}\t{}", hex::write(&case.name), case.answer())?;
    }
    out.flush()?;
    Ok(ExitCode::SUCCESS)
}

/// Writes the input and the expected output of cases to their files.
fn write_both(options: &Options, input: &str, output: &str) -> Result<ExitCode, Stop> {
    std::fs::write(&options.0["--in"], input)?;
    std::fs::write(&options.0["--out"], output)?;
    Ok(ExitCode::SUCCESS)
}

fn names(options: Options) -> Result<ExitCode, Stop> {
    let cases = name_cases::cases(options.number("--seed")?);
    write_both(&options, &cases.input, &cases.output)
}

fn pushes(options: Options) -> Result<ExitCode, Stop> {
    let cases = push_cases::cases(options.number("--seed")?);
    write_both(&options, &cases.input, &cases.output)
}

fn replay_input() -> Result<ExitCode, Stop> {
    let mut input = Vec::new();
    io::stdin().lock().read_to_end(&mut input)?;
    io::stdout().lock().write_all(replay::replay(&input).as_bytes())?;
    Ok(ExitCode::SUCCESS)
}

fn write_script(options: Options) -> Result<ExitCode, Stop> {
    let text = script::script(options.number("--seed")?, options.number("--lines")? as usize);
    io::stdout().lock().write_all(&text)?;
    Ok(ExitCode::SUCCESS)
}

/// Writes the bench examples as a script with its output, and says which lines are which example.
fn bench(options: Options) -> Result<ExitCode, Stop> {
    let bench = bench_script::bench();
    for (number, begin, end) in &bench.ranges {
        println!("example {number}: lines {begin} to {end}");
    }
    write_replayed(&options, &bench.run.text)
}

fn write_vectors(options: Options) -> Result<ExitCode, Stop> {
    write_replayed(&options, &vectors::vectors(options.number("--seed")?))
}

/// Writes a script, and what the replay program prints for it, to their files.
fn write_replayed(options: &Options, script: &[u8]) -> Result<ExitCode, Stop> {
    std::fs::write(&options.0["--in"], script)?;
    std::fs::write(&options.0["--out"], replay::replay(script))?;
    Ok(ExitCode::SUCCESS)
}

/// Says what a script and its output reach; the exit status is 1 where something is missing or the output is another.
fn count_reach(options: Options) -> Result<ExitCode, Stop> {
    let (input, output) = (std::fs::read(&options.0["--in"])?, std::fs::read(&options.0["--out"])?);
    let (text, is_whole) = match reach::reach(&input, &output) {
        Ok(reach) => reach.report(),
        Err(why) => (format!("reach: {why}\n"), false),
    };
    io::stdout().lock().write_all(text.as_bytes())?;
    Ok(if is_whole { ExitCode::SUCCESS } else { ExitCode::from(1) })
}

fn test_itself(options: Options) -> Result<ExitCode, Stop> {
    let (report, code) = match selftest::run(options.number("--seed")?, options.number("--calls")?) {
        Ok(counts) => (counts.report(), ExitCode::SUCCESS),
        Err(failure) => (failure.report(), ExitCode::from(1)),
    };
    io::stdout().lock().write_all(report.as_bytes())?;
    Ok(code)
}

/// The language, the first seed, the number of calls, and the program after `--` with its arguments.
fn through_child(arguments: &[String]) -> Result<(Language, u64, u64, Vec<String>), Stop> {
    let parting = arguments.iter().position(|argument| argument == "--").ok_or(Stop::Usage)?;
    let options = Options::read(&arguments[..parting], &["--language", "--seed", "--calls"])?;
    let language = match options.0["--language"].as_str() {
        "replay" => Language::Replay,
        "service" => Language::Service,
        _ => return Err(Stop::Usage),
    };
    let child = arguments[parting + 1..].to_vec();
    match child.is_empty() {
        true => Err(Stop::Usage),
        false => Ok((language, options.number("--seed")?, options.number("--calls")?, child)),
    }
}

/// Writes what a comparison came to; the exit status is 1 where there was a difference.
fn write_compared(compared: Result<String, Vec<u8>>) -> Result<ExitCode, Stop> {
    let (report, code) = match compared {
        Ok(agreement) => (agreement.into_bytes(), ExitCode::SUCCESS),
        Err(difference) => (difference, ExitCode::from(1)),
    };
    io::stdout().lock().write_all(&report)?;
    Ok(code)
}

/// Random runs through a child process and through this server.
fn compare(arguments: &[String]) -> Result<ExitCode, Stop> {
    let (language, seed, calls, child) = through_child(arguments)?;
    let compared = Comparison { language, child }.run(seed, calls)?;
    write_compared(compared.map(|agreement| agreement.report(seed)).map_err(|difference| difference.report()))
}

/// Random pairs of runs through a child process, held to each other.
fn pairs(arguments: &[String]) -> Result<ExitCode, Stop> {
    let (language, seed, calls, child) = through_child(arguments)?;
    let compared = Pairs { language, child }.run(seed, calls)?;
    write_compared(compared.map(|agreement| agreement.report(seed)).map_err(|difference| difference.report()))
}

fn run(arguments: &[String]) -> Result<ExitCode, Stop> {
    let (command, rest) = arguments.split_first().ok_or(Stop::Usage)?;
    match command.as_str() {
        "replay" if rest.is_empty() => replay_input(),
        "script" => write_script(Options::read(rest, &["--seed", "--lines"])?),
        "selftest" => test_itself(Options::read(rest, &["--seed", "--calls"])?),
        "compare" => compare(rest),
        "pairs" => pairs(rest),
        "kinds" => kinds(Options::read(rest, &["--seed", "--count"])?),
        "matches" => matches(Options::read(rest, &["--seed", "--count"])?),
        "pushes" => pushes(Options::read(rest, &["--seed", "--in", "--out"])?),
        "bench" => bench(Options::read(rest, &["--in", "--out"])?),
        "vectors" => write_vectors(Options::read(rest, &["--seed", "--in", "--out"])?),
        "reach" => count_reach(Options::read(rest, &["--in", "--out"])?),
        "names" => names(Options::read(rest, &["--seed", "--in", "--out"])?),
        _ => Err(Stop::Usage),
    }
}

fn main() -> ExitCode {
    let arguments: Vec<String> = std::env::args().skip(1).collect();
    match run(&arguments) {
        Ok(code) => code,
        Err(Stop::Usage) => {
            eprintln!("{USAGE}");
            ExitCode::from(2)
        }
        Err(Stop::Io(error)) => {
            eprintln!("reference: {error}");
            ExitCode::from(2)
        }
    }
}
