//! Questions of every kind about boards of every size, and about none.

use super::boards;
use crate::board::{Board, Curve};
use crate::calls::{Call, LONGEST};
use crate::file::write_design;
use crate::rng::Rng;

/// `count` boards, each asked everything; one in sixteen is not there.
pub fn questions(count: usize, rng: &mut Rng) -> Vec<Call> {
    let mut calls = Vec::new();
    for _ in 0..count {
        let board = boards::board(rng);
        let file = write_design(&board);
        if rng.once_in(2) {
            calls.push(Call::Drop);
        }
        calls.push(Call::Rule(super::rule(rng)));
        let length = file.len();
        if !rng.once_in(16) {
            calls.push(Call::Load(file));
        }
        about_parts(&mut calls, &board, rng);
        writes(&mut calls, length, rng);
        labels(&mut calls, rng);
    }
    calls
}

/// Any number that a parameter may be asked for at.
fn number(rng: &mut Rng) -> u64 {
    let edges = [
        0,
        1,
        63,
        64,
        65,
        255,
        256,
        65_535,
        65_536,
        (1 << 32) - 1,
        1 << 32,
        (1 << 32) + 1,
        1 << 63,
        u64::MAX,
    ];
    rng.one_of(&edges)
}

/// Every part of a small board and some of a large one, the number past the
/// last, and any number.
fn about_parts(calls: &mut Vec<Call>, board: &Board, rng: &mut Rng) {
    let parts = board.parts();
    let mut asked: Vec<u64> = (0..parts.min(4)).map(|_| rng.below(parts) as u64).collect();
    asked.extend([parts as u64 - 1, parts as u64, number(rng)]);
    for part in asked {
        calls.extend([Call::Up(part), Call::Down(part), Call::Sets(part)]);
        let curve = board.curves.get(part as usize);
        for delay in delays(curve, rng) {
            calls.push(Call::Power(part, delay));
        }
    }
}

/// Both ends of a curve and of each of its runs, one within each, and the
/// delays just outside.
fn delays(curve: Option<&Curve>, rng: &mut Rng) -> Vec<u64> {
    let mut delays = vec![number(rng)];
    let Some(curve) = curve else {
        return delays;
    };
    let mut reached = u64::from(curve.fastest);
    delays.extend([reached - 1, reached]);
    for run in &curve.runs {
        delays.push(reached + rng.between(1, run.length) as u64);
        reached += u64::from(run.length);
        delays.push(reached);
    }
    delays.push(reached + 1);
    delays
}

/// Buffers of every size near the needed one, none, the largest and larger.
fn writes(calls: &mut Vec<Call>, needed: usize, rng: &mut Rng) {
    let needed = needed as u64;
    for size in [0, 1, needed - 1, needed, needed + 1, needed + rng.below(100) as u64, number(rng)] {
        calls.push(Call::Write { size, version: number(rng), rule: number(rng) });
    }
}

/// Some lines of a sheet of good and bad labels, the line past the last, and
/// any line.
fn labels(calls: &mut Vec<Call>, rng: &mut Rng) {
    let most = if rng.once_in(8) { 70 } else { 6 };
    let lines = rng.below(most);
    let sheet = sheet(lines, rng);
    for line in [0, rng.below(lines + 1) as u64, lines as u64, lines as u64 + 1, number(rng)] {
        calls.push(Call::Label(line, sheet.clone()));
    }
}

fn sheet(lines: usize, rng: &mut Rng) -> Vec<u8> {
    let mut sheet = Vec::new();
    for _ in 0..lines {
        for _ in 0..rng.one_of(&[0, 1, 5, 15, 16, 17]) {
            sheet.push(letter(rng));
        }
        sheet.push(10);
    }
    if rng.once_in(3) {
        sheet.pop();
    }
    if rng.once_in(64) {
        sheet.resize(LONGEST, b'x');
    }
    sheet
}

/// Mostly any good byte; else one next to the ends of the range, or any.
fn letter(rng: &mut Rng) -> u8 {
    match rng.below(40) {
        0 => rng.one_of(&[32, 127, 9, 13, 0, 255]),
        1 => rng.byte(),
        2 => rng.one_of(&[33, 126]),
        _ => rng.between(33, 126) as u8,
    }
}
