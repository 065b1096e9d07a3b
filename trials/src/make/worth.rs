//! Boards at every deadline, tick by tick, to see what one more tick is worth.

use super::boards::{sized_board, Curves, Haste, SHAPES};
use crate::board::Board;
use crate::calls::Call;
use crate::file::{write_design, write_order, Order};
use crate::rng::Rng;
use std::ops::RangeInclusive;

/// The deadlines from the least at which a board is possible to one past the
/// greatest that changes anything.
pub fn deadlines(board: &Board) -> RangeInclusive<u32> {
    let slowest = board.times(&board.slowest()).ends.into_iter().max().unwrap_or(0);
    board.fastest_path_ticks()..=slowest + 1
}

/// A board without loops whose deadlines are some tens.
pub fn short_board(rng: &mut Rng) -> Board {
    loop {
        let parts = rng.between(1, 16) as usize;
        let curves = rng.one_of(&[Curves::Small, Curves::Ties, Curves::Mixed]);
        let mut board = sized_board(parts, rng.one_of(&SHAPES[1..8]), curves, Haste::Tightest, rng);
        let ticks = deadlines(&board);
        if *ticks.end() <= 4_095 && ticks.clone().count() <= 120 {
            board.deadline = *ticks.start();
            return board;
        }
    }
}

/// `count` boards, each at every deadline in turn; what is held is asked for at
/// each.
pub fn worth(count: usize, rng: &mut Rng) -> Vec<Call> {
    let mut calls = vec![Call::Rule(0)];
    for _ in 0..count {
        let board = short_board(rng);
        calls.push(Call::Load(write_design(&board)));
        for ticks in deadlines(&board) {
            calls.extend([Call::Order(write_order(&Order::Deadline(ticks))), Call::State]);
        }
    }
    calls
}
