//! The paper's boards. Each test file takes what it needs.
#![allow(dead_code)]

use trials::board::{Board, Curve, Rule, Run, RULE_A};
use trials::desk::{Answer, Desk, Tally};
use trials::file::write_design;

pub const K_HEX: &str = "01 0A 04 02 64 02 02 14 01 05 03 5A 01 03 0C 01 32 01 02 0C \
                         04 28 02 01 06 01 02 03 00 01 00 03 01 02";

pub fn bytes(hex: &str) -> Vec<u8> {
    hex.split_whitespace().map(|byte| u8::from_str_radix(byte, 16).expect("two hex digits")).collect()
}

/// Runs are given as length at saving.
pub fn curve(fastest: u32, power: u32, runs: &[(u32, u32)]) -> Curve {
    let runs = runs.iter().map(|&(length, saving)| Run { length, saving }).collect();
    Curve { fastest, power, runs }
}

pub fn board(deadline: u32, curves: Vec<Curve>, links: &[(usize, usize)]) -> Board {
    Board { rule: Rule::A, deadline, curves, links: links.iter().copied().collect() }
}

pub fn board_k() -> Board {
    let curves = vec![
        curve(2, 100, &[(2, 20), (1, 5)]),
        curve(3, 90, &[(3, 12)]),
        curve(1, 50, &[(2, 12)]),
        curve(4, 40, &[(1, 6), (1, 2)]),
    ];
    board(10, curves, &[(0, 1), (0, 3), (1, 2)])
}

pub fn board_d(first_saving: u32) -> Board {
    let other = curve(1, 10, &[(1, 3)]);
    let curves = vec![curve(1, 10, &[(1, first_saving)]), other.clone(), other];
    board(3, curves, &[(0, 1), (0, 2)])
}

pub fn one_part(deadline: u32, curve: Curve) -> Board {
    board(deadline, vec![curve], &[])
}

/// A desk with its tally, and what the last call answered.
pub struct Session {
    pub desk: Desk,
    pub tally: Tally,
}

impl Session {
    pub fn with(board: &Board) -> Session {
        let mut session = Session { desk: Desk::default(), tally: Tally::default() };
        session.desk.load(RULE_A, &write_design(board), &mut session.tally).expect("the board is accepted");
        session
    }

    pub fn order(&mut self, hex: &str) -> Answer {
        self.desk.order(&bytes(hex), &mut self.tally)
    }

    pub fn refused(&mut self, hex: &str) -> (u32, u64, Vec<usize>) {
        let refusal = self.order(hex).verdict.expect_err("the order is refused");
        (refusal.number, refusal.place, refusal.path)
    }

    pub fn delays(&self) -> Vec<u32> {
        self.desk.held().expect("a board is held").budget.delays.clone()
    }

    pub fn ends(&self) -> Vec<u32> {
        self.desk.held().expect("a board is held").budget.ends.clone()
    }

    pub fn total(&self) -> u32 {
        self.desk.held().expect("a board is held").budget.total
    }
}
