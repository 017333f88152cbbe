//! A child process that is given its whole input and heard to its end; several of them at once.

use std::io::{self, Read, Write};
use std::process::{Command, Stdio};
use std::sync::mpsc;
use std::thread;
use std::time::Duration;

/// A child that has not ended after so long is killed.
const PATIENCE: Duration = Duration::from_secs(120);

/// What a child wrote, and what was wrong with its end, if anything.
pub struct Heard {
    pub output: Vec<u8>,
    pub complaint: Option<String>,
}

/// Runs a command, a program and its arguments, on an input.
pub fn hear(command: &[String], input: &[u8]) -> io::Result<Heard> {
    let (program, arguments) = command.split_first().ok_or(io::ErrorKind::InvalidInput)?;
    let mut child = Command::new(program)
        .args(arguments)
        .stdin(Stdio::piped())
        .stdout(Stdio::piped())
        .stderr(Stdio::piped())
        .spawn()
        .map_err(|error| io::Error::new(error.kind(), format!("{program}: {error}")))?;
    let mut stdin = child.stdin.take().expect("piped");
    let (stdout, stderr) = (child.stdout.take().expect("piped"), child.stderr.take().expect("piped"));
    thread::scope(|scope| {
        // A child that ends before it has read all breaks the pipe; its output and its status tell.
        scope.spawn(move || stdin.write_all(input));
        let errors = scope.spawn(move || whole(stderr));
        let (done, ending) = mpsc::channel();
        let reader = scope.spawn(move || {
            let output = whole(stdout);
            let _ = done.send(());
            output
        });
        let late = ending.recv_timeout(PATIENCE).is_err();
        if late {
            child.kill()?;
        }
        let output = reader.join().expect("the reader does not panic")?;
        let status = child.wait()?;
        let errors = errors.join().expect("the reader does not panic")?;
        let complaint = match (late, status.success()) {
            (true, _) => Some(format!("it had not ended after {} seconds", PATIENCE.as_secs())),
            (false, false) => Some(format!("it ended with {status}")),
            (false, true) => None,
        };
        Ok(Heard { output, complaint: complaint.map(|text| text + &first_line(&errors)) })
    })
}

/// What is done for a seed, for as many seeds from one on as the machine can do at once.
pub fn at_once<T: Send>(seed: u64, one: impl Fn(u64) -> io::Result<T> + Sync) -> io::Result<Vec<T>> {
    let count = thread::available_parallelism().map_or(1, |count| count.get().min(4)) as u64;
    let one = &one;
    thread::scope(|scope| {
        let workers: Vec<_> = (0..count).map(|number| scope.spawn(move || one(seed.wrapping_add(number)))).collect();
        workers.into_iter().map(|worker| worker.join().expect("a run does not panic")).collect()
    })
}

fn whole(mut stream: impl Read) -> io::Result<Vec<u8>> {
    let mut bytes = Vec::new();
    stream.read_to_end(&mut bytes).map(|_| bytes)
}

/// The first line of what a child said on standard error, if it said something.
fn first_line(errors: &[u8]) -> String {
    match String::from_utf8_lossy(errors).lines().next() {
        Some(line) => format!(", with the words: {line}"),
        None => String::new(),
    }
}
