//! Commands of the model, as `USAGE` lists them.

use std::env;
use std::io::{self, Read, Write};
use std::path::Path;
use std::process::ExitCode;

use model::record::{self, Recording};
use model::{
    bench, carriage, console, differ, generate, panelrun, planes, poller, polling, polls, print,
    recorded_polls, serve, sessions, slave, turn,
};

const USAGE: &str = "usage:
  model run < input > output
  model print < input > output
  model console < text > text
  model planes < bytes > bytes
  model poller < text > text
  model slave NODE TABLE [EVENTS]  (a serial line on standard input and output)
  model generate SEED CASE > input
  model differ PANELRUN_PATH SEED COUNT
  model differ-console CONSOLE_PATH SEED COUNT
  model differ-planes PLANES_PATH SEED COUNT
  model differ-poller POLLER_PATH SEED COUNT
  model record runs SEED RUNS TABLES DIR
  model record sessions SEED COUNT DIR
  model record planes DIR
  model record polls SEED COUNT DIR
  model check ..                   (as record: whether the files are those of the seed)
  model step ROUNDS < input        (a sum over all answers)
  model bursts ROUNDS < input      (a sum over all bursts of telegrams)
  model burst-steps ROUNDS < input (the same by single steps)
  model events KIND N > input      (telegrams, levels, ticks, mixed, far_end, middle, near_end
                                   or round_loop)
  model serve ROUNDS < input       (a sum over all replies)
  model frames KIND N > input      (read, write or mixed)
  model carriage KIND N > words    (gray or binary)
  model turn ROUNDS < words        (a sum over the turned words)
  model copy ROUNDS < words        (the same by copying)
  model picks ROUNDS < steps       (a sum over the answers of a dispatcher)
  model polls KIND N > steps       (ordinary, errors, reports, spread or mixed)";

fn main() -> ExitCode {
    let words: Vec<String> = env::args().skip(1).collect();
    let words: Vec<&str> = words.iter().map(String::as_str).collect();
    match command(&words) {
        Ok(true) => ExitCode::SUCCESS,
        Ok(false) => ExitCode::FAILURE,
        Err(error) => {
            eprintln!("{error}");
            ExitCode::FAILURE
        }
    }
}

/// Runs one command; false when a comparison fails.
fn command(words: &[&str]) -> io::Result<bool> {
    match words {
        ["run"] => run(),
        ["print"] => print::print(io::stdin().lock(), io::stdout().lock()).map(|()| true),
        ["console"] => console::serve(io::stdin().lock(), io::stdout().lock()).map(|()| true),
        ["planes"] => turn_planes(),
        ["poller"] => poller::serve(io::stdin().lock(), io::stdout().lock()).map(|()| true),
        ["slave", node, table] => slave::run(node, table, None),
        ["slave", node, table, events] => slave::run(node, table, Some(events)),
        ["generate", seed, case] => generate_case(number(seed)?, number(case)?),
        ["differ", program, seed, count] => compare(program, number(seed)?, number(count)?),
        ["differ-console", program, seed, count] => {
            compare_console(program, number(seed)?, number(count)?)
        }
        ["differ-planes", program, seed, count] => {
            compare_planes(program, number(seed)?, number(count)?)
        }
        ["differ-poller", program, seed, count] => {
            compare_poller(program, number(seed)?, number(count)?)
        }
        ["record", words @ .., folder] => write_record(&recording(words)?, folder),
        ["check", words @ .., folder] => check_record(&recording(words)?, folder),
        ["step", rounds] => sum(bench::sum, rounds),
        ["bursts", rounds] => sum(bench::sum_of_bursts, rounds),
        ["burst-steps", rounds] => sum(bench::sum_of_burst_steps, rounds),
        ["events", kind, count] if bench::KINDS.contains(kind) => {
            io::stdout().lock().write_all(&bench::input(kind, number(count)? as usize))?;
            Ok(true)
        }
        ["serve", rounds] => sum(serve::sum, rounds),
        ["frames", kind, count] if serve::KINDS.contains(kind) => {
            io::stdout().lock().write_all(&serve::input(kind, number(count)? as usize))?;
            Ok(true)
        }
        ["carriage", kind, count] if carriage::KINDS.contains(kind) => {
            io::stdout().lock().write_all(&carriage::log(kind, number(count)? as usize))?;
            Ok(true)
        }
        ["turn", rounds] => sum(turn::sum, rounds),
        ["copy", rounds] => sum(turn::sum_of_copies, rounds),
        ["picks", rounds] => sum(polls::sum, rounds),
        ["polls", kind, count] if polls::KINDS.contains(kind) => {
            io::stdout().lock().write_all(&polls::input(kind, number(count)? as usize))?;
            Ok(true)
        }
        _ => Err(io::Error::other(USAGE)),
    }
}

fn number(word: &str) -> io::Result<u64> {
    word.parse().map_err(|_| io::Error::other(format!("not a number: {word}")))
}

fn run() -> io::Result<bool> {
    io::stdout().lock().write_all(panelrun::run(&input()?).as_bytes())?;
    Ok(true)
}

fn turn_planes() -> io::Result<bool> {
    io::stdout().lock().write_all(&planes::turned_bytes(&input()?))?;
    Ok(true)
}

/// Prints a sum over so many rounds of an input.
fn sum(sum: fn(&[u8], u64) -> u64, rounds: &str) -> io::Result<bool> {
    println!("{}", sum(&input()?, number(rounds)?));
    Ok(true)
}

fn input() -> io::Result<Vec<u8>> {
    let mut input = Vec::new();
    io::stdin().lock().read_to_end(&mut input)?;
    Ok(input)
}

fn generate_case(seed: u64, case: u64) -> io::Result<bool> {
    io::stdout().lock().write_all(&generate::case(seed, case).input)?;
    Ok(true)
}

/// False as well where digits ran back under a table that goes forward (K14), where halves rounded
/// upward give other digits though no half of theirs is marked (K7), where the rule before K4 answers
/// otherwise though M is a multiple of R, or where 12 is noted with a round loop (K4).
fn compare(program: &str, seed: u64, count: u64) -> io::Result<bool> {
    let make = |index| differ::panelrun_case(seed, index);
    let (seen, difference) = differ::differ(program, count, make)?;
    if let Some(difference) = difference {
        differ::report(&difference, "panelrun", differ::by_line)?;
        return Ok(false);
    }
    println!("{} cases and {} lines compared, no difference", seen.runs, seen.lines);
    print!("{seen}");
    let k4 = seen.turntable.compared_apart == 0 && seen.turntable.noted_12 == 0;
    Ok(seen.ran_back == 0 && seen.unmarked_apart == 0 && k4)
}

fn compare_console(program: &str, seed: u64, count: u64) -> io::Result<bool> {
    let make = |index| differ::console_case(seed, index);
    let (seen, difference) = differ::differ(program, count, make)?;
    if let Some(difference) = difference {
        differ::report(&difference, "console", differ::by_line)?;
        return Ok(false);
    }
    println!("{count} runs with {} sessions compared, no difference", seen.of("sessions"));
    print!("{seen}");
    Ok(true)
}

/// K8: each input is turned, and what comes out once more.
fn compare_planes(program: &str, seed: u64, count: u64) -> io::Result<bool> {
    let make = |index| differ::planes_case(seed, index);
    let (seen, difference) = differ::differ(program, count, make)?;
    if let Some(difference) = difference {
        differ::report(&difference, "planes", differ::by_byte)?;
        return Ok(false);
    }
    println!("{} inputs and {} bytes compared, no difference", seen.inputs, seen.bytes);
    print!("{seen}");
    Ok(true)
}

/// K12: false as well where a panel that stayed in its group waited for more than 2n picks.
fn compare_poller(program: &str, seed: u64, count: u64) -> io::Result<bool> {
    let make = |index| differ::poller_case(seed, index);
    let (seen, difference) = differ::differ(program, count, make)?;
    if let Some(difference) = difference {
        differ::report(&difference, "poller", differ::by_line)?;
        return Ok(false);
    }
    println!("{count} texts with {} lines compared, no difference", seen.of("lines"));
    print!("{seen}");
    Ok(seen.of(polling::OVER) == 0)
}

fn recording(words: &[&str]) -> io::Result<Recording> {
    match words {
        ["runs", seed, runs, tables] => {
            Ok(record::recording(number(seed)?, number(runs)?, number(tables)?))
        }
        ["sessions", seed, count] => Ok(sessions::recording(number(seed)?, number(count)?)),
        ["planes"] => Ok(planes::recording()),
        ["polls", seed, count] => Ok(recorded_polls::recording(number(seed)?, number(count)?)),
        _ => Err(io::Error::other(USAGE)),
    }
}

fn write_record(recording: &Recording, folder: &str) -> io::Result<bool> {
    recording.write(Path::new(folder))?;
    let bytes = if recording.reads { recording.input.len() } else { recording.output.len() };
    println!("{}: {bytes} bytes", recording.name);
    Ok(true)
}

fn check_record(recording: &Recording, folder: &str) -> io::Result<bool> {
    let same = recording.is_in(Path::new(folder))?;
    let verdict = match (recording.reads, same) {
        (true, true) => "the files are those of the seed",
        (true, false) => "the files differ",
        (false, true) => "the file is the model's",
        (false, false) => "the file differs",
    };
    println!("{}: {verdict}", recording.name);
    Ok(same)
}
