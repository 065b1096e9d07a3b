//! The second planner as a program. Every line ends with byte 10.
//!
//! `trials calls SCRIPT`: what the support program `calls` prints for a script
//!   (`calls.rs` says what a script is): a line or more for each call.
//! `trials show DIR`: what the small program prints for board.dat, orders.dat
//!   and names.txt.
//! `trials make KIND COUNT SEED OUT`: writes a script of COUNT cases. KIND is
//!   loads: damaged and good files, with what is held after each;
//!   designs: boards of every shape and size;
//!   sessions: a board, orders of every kind, further loads, foreign tallies;
//!   steps: sessions with what is held after every call;
//!   questions: every question, about every kind of number;
//!   worth: boards at every deadline, tick by tick;
//!   advised: design files with advice, as a bundle (`bundle.rs`), not a script.
//! `trials tour OUT`: writes the stored script of the program `calls`.
//! `trials list SCRIPT`: the calls of a script, one on a line, counted from 1.
//! `trials advised BUNDLE`: records by twos, design file and advice.
//!   session I, then the lines load, part and total
//! `trials compare LEFT RIGHT`: exit 0 where two outputs are the same; else 1
//!   and the first lines that differ.

use std::fs::{self, File};
use std::io::{BufWriter, Read, Write};
use std::path::Path;
use std::process::ExitCode;
use trials::rng::Rng;
use trials::{bundle, calls, make, player, report};

fn main() -> ExitCode {
    let words: Vec<String> = std::env::args().skip(1).collect();
    let words: Vec<&str> = words.iter().map(String::as_str).collect();
    match run(&words) {
        Ok(code) => code,
        Err(fault) => {
            eprintln!("trials: {fault}");
            ExitCode::from(2)
        }
    }
}

fn run(words: &[&str]) -> Result<ExitCode, String> {
    match *words {
        ["calls", path] => play(path),
        ["show", folder] => {
            print(&report::show(&board_file(folder), &orders_file(folder), &names_file(folder)))
        }
        ["make", kind, count, seed, out] => {
            write(out, &made(kind, number(count)?, &mut Rng::new(number(seed)?))?)
        }
        ["tour", out] => write(out, &make::tour()),
        ["list", path] => print(&listed(&whole_file(path)?)),
        ["advised", path] => print(&advised(path)?),
        ["compare", left, right] => compare(left, right),
        _ => Err("calls, show, make, tour, list, advised or compare".to_string()),
    }
}

fn play(path: &str) -> Result<ExitCode, String> {
    let script = whole_file(path)?;
    let mut out = BufWriter::new(std::io::stdout().lock());
    player::play(&script, &mut out).and_then(|()| out.flush()).map_err(|fault| fault.to_string())?;
    Ok(ExitCode::SUCCESS)
}

fn print(text: &str) -> Result<ExitCode, String> {
    let mut out = std::io::stdout().lock();
    out.write_all(text.as_bytes()).map_err(|fault| fault.to_string())?;
    Ok(ExitCode::SUCCESS)
}

fn board_file(folder: &str) -> Vec<u8> {
    first_bytes(folder, "board.dat", 2_048)
}

fn orders_file(folder: &str) -> Vec<u8> {
    first_bytes(folder, "orders.dat", 65_536)
}

fn names_file(folder: &str) -> Vec<u8> {
    first_bytes(folder, "names.txt", 4_096)
}

/// A file that is missing or cannot be read counts as empty.
fn first_bytes(folder: &str, name: &str, most: u64) -> Vec<u8> {
    let mut bytes = Vec::new();
    let read =
        File::open(Path::new(folder).join(name)).and_then(|file| file.take(most).read_to_end(&mut bytes));
    if read.is_err() {
        bytes.clear();
    }
    bytes
}

fn number<N: std::str::FromStr>(word: &str) -> Result<N, String> {
    word.parse().map_err(|_| format!("{word} is not a number"))
}

fn whole_file(path: &str) -> Result<Vec<u8>, String> {
    fs::read(path).map_err(|fault| format!("{path}: {fault}"))
}

fn advised(path: &str) -> Result<String, String> {
    let bytes = whole_file(path)?;
    let records = bundle::unpack(&bytes).ok_or(format!("{path} ends within a record"))?;
    Ok(report::advised(&records))
}

fn made(kind: &str, count: usize, rng: &mut Rng) -> Result<Vec<u8>, String> {
    let script = match kind {
        "loads" => make::loads(count, rng),
        "designs" => make::designs(count, rng),
        "sessions" => make::sessions(count, rng),
        "steps" => make::steps(count, rng),
        "questions" => make::questions(count, rng),
        "worth" => make::worth(count, rng),
        "advised" => return Ok(bundle::pack(&make::advised(count, rng))),
        _ => return Err("a kind is loads, designs, sessions, steps, questions, worth or advised".to_string()),
    };
    Ok(calls::script(&script))
}

fn listed(script: &[u8]) -> String {
    let mut text = String::new();
    for (call, count) in calls::calls(script).zip(1..) {
        let words = call.map_or("cut short or unknown".to_string(), |call| format!("{call:?}"));
        report::line(&mut text, format_args!("{count} {words}"));
    }
    text
}

fn write(out: &str, bytes: &[u8]) -> Result<ExitCode, String> {
    fs::write(out, bytes).map_err(|fault| format!("{out}: {fault}"))?;
    Ok(ExitCode::SUCCESS)
}

fn compare(left: &str, right: &str) -> Result<ExitCode, String> {
    let (left, right) = (whole_file(left)?, whole_file(right)?);
    match report::differences(&left, &right) {
        None => Ok(ExitCode::SUCCESS),
        Some(text) => {
            print!("{text}");
            Ok(ExitCode::FAILURE)
        }
    }
}
