//! The texts that the programs print; formats at the top of `main.rs`.

use crate::board::{Board, Rule, RULE_A};
use crate::desk::{label, Answer, Desk, Held, Tally};
use crate::file::read_design;
use crate::refusal::Refusal;
use crate::solve::{cheapest, Budget};
use std::fmt::Write;

pub fn line(text: &mut String, words: std::fmt::Arguments) {
    writeln!(text, "{words}").expect("a text takes any line");
}

pub fn spaced<T: ToString>(items: &[T]) -> String {
    items.iter().map(|item| format!(" {}", item.to_string())).collect()
}

pub fn hex(bytes: &[u8]) -> String {
    bytes.iter().map(|byte| format!("{byte:02x}")).collect()
}

/// Number, place and path; all 0 where nothing was refused.
pub fn facts<T>(verdict: &Result<T, Refusal>) -> (u32, u64, &[usize]) {
    match verdict {
        Ok(_) => (0, 0, &[]),
        Err(refusal) => (refusal.number, refusal.place, &refusal.path),
    }
}

/// One order and where in the stream it was.
struct Step {
    at: usize,
    answer: Answer,
}

/// Gives the desk the orders of a stream one after another, up to the first
/// that cannot be read.
fn follow(desk: &mut Desk, tally: &mut Tally, orders: &[u8]) -> Vec<Step> {
    let mut steps = Vec::new();
    let mut at = 0;
    while at < orders.len() {
        let answer = desk.order(&orders[at..], tally);
        let took = answer.took;
        steps.push(Step { at, answer });
        if took == 0 {
            break;
        }
        at += took;
    }
    steps
}

/// What a budget gives each part, and its total.
pub fn budget_lines(text: &mut String, board: &Board, budget: &Budget) {
    for (part, curve) in board.curves.iter().enumerate() {
        let (start, delay, end) = (budget.starts[part], budget.delays[part], budget.ends[part]);
        let power = curve.power_at(delay).expect("a budget is on the curves");
        line(text, format_args!("part {part} start {start} delay {delay} end {end} power {power}"));
    }
    line(text, format_args!("total {}", budget.total));
}

fn timed(held: &Held, part: usize) -> (u32, u32, u32) {
    let budget = &held.budget;
    (budget.starts[part], budget.delays[part], budget.ends[part])
}

/// What the small program prints.
pub fn show(file: &[u8], orders: &[u8], names: &[u8]) -> String {
    let mut text = String::new();
    let (mut desk, mut tally) = (Desk::default(), Tally::default());
    if let Err(refusal) = desk.load(RULE_A, file, &mut tally) {
        line(&mut text, format_args!("refused {} {}", refusal.number, refusal.place));
        return text;
    }
    for (index, step) in follow(&mut desk, &mut tally, orders).iter().enumerate() {
        show_step(&mut text, index + 1, step);
    }
    let held = desk.held().expect("a load was accepted");
    line(&mut text, format_args!("part label start delay end power"));
    for part in 0..held.board.parts() {
        let (start, delay, end) = timed(held, part);
        let power = desk.power(part as u64, u64::from(delay)).expect("a budget is on the curves");
        let name = label(names, part as u64).unwrap_or(b"-");
        let name: String = name.iter().map(|&byte| char::from(byte)).collect();
        line(&mut text, format_args!("{part} {name} {start} {delay} {end} {power}"));
    }
    line(&mut text, format_args!("total {}", held.budget.total));
    line(&mut text, format_args!("orders {} taken {} refused", tally.taken, tally.refused));
    text
}

/// Only refusals print; one in reading has its place counted from the start
/// of the orders file.
fn show_step(text: &mut String, count: usize, step: &Step) {
    let Err(refusal) = &step.answer.verdict else {
        return;
    };
    if step.answer.took == 0 {
        let place = step.at as u64 + refusal.place;
        line(text, format_args!("stopped {} {place}", refusal.number));
    } else {
        line(text, format_args!("order {count} refused {}", refusal.number));
    }
}

/// Design files, each with advice, which changes nothing.
pub fn advised(records: &[&[u8]]) -> String {
    let mut text = String::new();
    for (index, pair) in records.chunks(2).enumerate() {
        line(&mut text, format_args!("session {}", index + 1));
        let checked = read_design(Rule::A, pair[0]).and_then(|board| board.check_loops_and_times().map(|()| board));
        let (number, place, path) = facts(&checked);
        line(&mut text, format_args!("load no {number} place {place} path {}{}", path.len(), spaced(path)));
        if let Ok(board) = checked {
            budget_lines(&mut text, &board, &cheapest(&board));
        }
    }
    text
}

/// The lines at which two outputs differ, the first ten of them, each side as
/// it stands; `None` where there are none.
pub fn differences(left: &[u8], right: &[u8]) -> Option<String> {
    let (left, right) = (lines_of(left), lines_of(right));
    let longest = left.len().max(right.len());
    let differ: Vec<usize> = (0..longest).filter(|&i| left.get(i) != right.get(i)).collect();
    if differ.is_empty() {
        return None;
    }
    let mut text = String::new();
    line(&mut text, format_args!("{} of {longest} lines differ", differ.len()));
    for index in differ.into_iter().take(10) {
        line(&mut text, format_args!("line {}", index + 1));
        line(&mut text, format_args!("< {}", shown(left.get(index))));
        line(&mut text, format_args!("> {}", shown(right.get(index))));
    }
    Some(text)
}

fn lines_of(bytes: &[u8]) -> Vec<&[u8]> {
    bytes.split(|&byte| byte == 10).collect()
}

fn shown(line: Option<&&[u8]>) -> String {
    line.map_or("(no line)".to_string(), |line| String::from_utf8_lossy(line).into_owned())
}
