//! Runs another panelrun, console, planes or poller on random cases and holds its output against the
//! model's.

use std::fs;
use std::io::{self, ErrorKind, Write};
use std::process::{Command, Output, Stdio};
use std::sync::atomic::{AtomicBool, AtomicU64, Ordering};
use std::sync::Mutex;
use std::thread;

use crate::coverage::{self, Coverage};
use crate::generate::planes::Met;
use crate::generate::{self, borders, sessions};
use crate::planes;
use crate::polling::{self, Polling};
use crate::tally::{self, Tally};

/// Processes at a time.
const WORKERS: usize = 2;

/// What cases meet, counted.
pub trait Counts: Default + Send {
    /// Adds the counts of other cases.
    fn add(&mut self, other: &Self);
}

/// An input, what the model prints for it, and what it meets.
pub struct Case<C> {
    pub purpose: String,
    pub input: Vec<u8>,
    pub expected: Vec<u8>,
    /// K8: what is printed for the output is the input.
    pub turns_back: bool,
    pub met: C,
}

/// A case on which the two disagree.
pub struct Difference {
    pub case: u64,
    pub purpose: String,
    pub input: Vec<u8>,
    pub expected: Vec<u8>,
    pub actual: Vec<u8>,
    /// Standard error and how the process ended, where that is wrong.
    pub trouble: String,
}

/// What the workers share.
struct Shared<'a, C> {
    program: &'a str,
    make: &'a (dyn Fn(u64) -> Case<C> + Sync),
    count: u64,
    next: AtomicU64,
    stop: AtomicBool,
    seen: Mutex<C>,
    found: Mutex<Option<Difference>>,
}

/// An input of panelrun: first the borders between its pieces, then random ones from a seed.
pub fn panelrun_case(seed: u64, index: u64) -> Case<Coverage> {
    let (purpose, input) = match borders::input(index) {
        Some(input) => ("a border between pieces".into(), input),
        None => {
            let case = generate::case(seed, index);
            (case.theme.purpose(), case.input)
        }
    };
    let (expected, met) = coverage::observe(&input);
    Case { purpose, input, expected: expected.into_bytes(), turns_back: false, met }
}

/// A text of console from a seed.
pub fn console_case(seed: u64, index: u64) -> Case<Tally> {
    let (input, sessions) = sessions::text(seed, index);
    let (expected, mut met) = tally::observe(&input);
    (0..sessions).for_each(|_| met.count("sessions"));
    let purpose = format!("sessions: {sessions}");
    Case { purpose, input, expected: expected.into_bytes(), turns_back: false, met }
}

/// K8: an input of planes from a seed.
pub fn planes_case(seed: u64, index: u64) -> Case<Met> {
    let (content, input) = generate::planes::input(seed, index);
    let expected = planes::turned_bytes(&input);
    let met = Met::of(content, &input, &expected);
    let purpose = format!("{}, {} bytes", content.name(), input.len());
    Case { purpose, input, expected, turns_back: true, met }
}

/// K12: a text of poller from a seed.
pub fn poller_case(seed: u64, index: u64) -> Case<Polling> {
    let (theme, input) = generate::polls::text(seed, index);
    let (expected, met) = polling::observe(&input);
    let purpose = theme.name().into();
    Case { purpose, input, expected: expected.into_bytes(), turns_back: false, met }
}

/// Compares `count` cases; the first difference ends the comparison.
pub fn differ<C: Counts>(
    program: &str,
    count: u64,
    make: impl Fn(u64) -> Case<C> + Sync,
) -> io::Result<(C, Option<Difference>)> {
    let shared = Shared {
        program,
        make: &make,
        count,
        next: AtomicU64::new(0),
        stop: AtomicBool::new(false),
        seen: Mutex::new(C::default()),
        found: Mutex::new(None),
    };
    thread::scope(|scope| {
        let workers: Vec<_> = (0..WORKERS).map(|_| scope.spawn(|| work(&shared))).collect();
        workers.into_iter().try_for_each(|worker| worker.join().unwrap())
    })?;
    Ok((shared.seen.into_inner().unwrap(), shared.found.into_inner().unwrap()))
}

fn work<C: Counts>(shared: &Shared<C>) -> io::Result<()> {
    let mut seen = C::default();
    while !shared.stop.load(Ordering::Relaxed) {
        let index = shared.next.fetch_add(1, Ordering::Relaxed);
        if index >= shared.count {
            break;
        }
        let case = (shared.make)(index);
        seen.add(&case.met);
        let difference = compare(shared.program, index, case).inspect_err(|_| {
            shared.stop.store(true, Ordering::Relaxed);
        })?;
        if difference.is_some() {
            shared.stop.store(true, Ordering::Relaxed);
            *shared.found.lock().unwrap() = difference;
        }
    }
    shared.seen.lock().unwrap().add(&seen);
    Ok(())
}

/// Runs one case through the program, and its output once more where that turns back.
fn compare<C>(program: &str, index: u64, case: Case<C>) -> io::Result<Option<Difference>> {
    let Case { purpose, input, expected, turns_back, .. } = case;
    let difference = compare_run(program, index, &purpose, &input, &expected)?;
    if difference.is_some() || !turns_back {
        return Ok(difference);
    }
    compare_run(program, index, &format!("{purpose}, turned again"), &expected, &input)
}

/// Holds what the program prints for an input against what is expected.
fn compare_run(
    program: &str,
    index: u64,
    purpose: &str,
    input: &[u8],
    expected: &[u8],
) -> io::Result<Option<Difference>> {
    let output = run(program, input)?;
    let trouble = trouble(&output);
    if output.stdout == expected && trouble.is_empty() {
        return Ok(None);
    }
    Ok(Some(Difference {
        case: index,
        purpose: purpose.into(),
        input: input.into(),
        expected: expected.into(),
        actual: output.stdout,
        trouble,
    }))
}

/// Feeds an input to a program while its output is read; one that stops reading early is no error.
fn run(program: &str, input: &[u8]) -> io::Result<Output> {
    let mut child = Command::new(program)
        .stdin(Stdio::piped())
        .stdout(Stdio::piped())
        .stderr(Stdio::piped())
        .spawn()?;
    let mut stdin = child.stdin.take().unwrap();
    thread::scope(|scope| {
        let feeding = scope.spawn(move || stdin.write_all(input));
        let output = child.wait_with_output();
        match feeding.join().unwrap() {
            Err(error) if error.kind() != ErrorKind::BrokenPipe => Err(error),
            _ => output,
        }
    })
}

/// Text on standard error, or an end by a signal.
fn trouble(output: &Output) -> String {
    let mut text = String::from_utf8_lossy(&output.stderr).into_owned();
    if output.status.code().is_none() {
        text.push_str(&output.status.to_string());
    }
    text
}

/// Where two outputs part, and what each has there.
pub type Parting = fn(&[u8], &[u8]) -> [String; 3];

/// Writes input and outputs of a difference beside each other and prints where they part.
pub fn report(difference: &Difference, program: &str, parting: Parting) -> io::Result<()> {
    fs::write("difference.input", &difference.input)?;
    fs::write("difference.expected", &difference.expected)?;
    fs::write("difference.actual", &difference.actual)?;
    println!("case {} ({}) differs", difference.case, difference.purpose);
    let [place, expected, actual] = parting(&difference.expected, &difference.actual);
    println!("{place}");
    println!("{:9} {expected}", "model:");
    println!("{:9} {actual}", format!("{program}:"));
    if !difference.trouble.is_empty() {
        println!("{:9} {}", "trouble:", difference.trouble.trim_end());
    }
    println!("files: difference.input, difference.expected, difference.actual");
    Ok(())
}

/// Number and text of the first line that differs.
pub fn by_line(expected: &[u8], actual: &[u8]) -> [String; 3] {
    let lines = |bytes: &[u8]| -> Vec<String> {
        let text = String::from_utf8_lossy(bytes).into_owned();
        text.split('\n').map(String::from).collect()
    };
    let (expected, actual) = (lines(expected), lines(actual));
    let line = first_apart(&expected, &actual);
    let text = |lines: &[String]| lines.get(line).cloned().unwrap_or("(no line)".into());
    [format!("line {}", line + 1), text(&expected), text(&actual)]
}

/// K8: number and digits of the first byte that differs.
pub fn by_byte(expected: &[u8], actual: &[u8]) -> [String; 3] {
    let byte = first_apart(expected, actual);
    let text = |bytes: &[u8]| match bytes.get(byte) {
        Some(digits) => format!("{digits:02x}, of {} bytes", bytes.len()),
        None => format!("(no byte), of {} bytes", bytes.len()),
    };
    [format!("byte {}", byte + 1), text(expected), text(actual)]
}

fn first_apart<T: PartialEq>(expected: &[T], actual: &[T]) -> usize {
    let longest = expected.len().max(actual.len());
    (0..longest).find(|&i| expected.get(i) != actual.get(i)).unwrap_or(longest)
}
