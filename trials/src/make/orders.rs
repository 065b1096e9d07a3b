//! Orders for a board, good and bad, all of them readable.

use super::boards::{curve, CURVES};
use crate::board::*;
use crate::file::Order;
use crate::rng::Rng;

pub fn order(board: &Board, rng: &mut Rng) -> Order {
    match rng.below(10) {
        0..=2 => Order::Deadline(deadline(board, rng)),
        3..=5 => add(board, rng),
        6..=7 => remove(board, rng),
        _ => replace(board, rng),
    }
}

/// Around the fastest path, around the present deadline, or anywhere.
fn deadline(board: &Board, rng: &mut Rng) -> u32 {
    let fastest = board.fastest_path_ticks();
    let ticks = match rng.below(8) {
        0 => due(board, fastest),
        1 => due(board, fastest) - 1,
        2 => due(board, fastest) + 1,
        3 => board.deadline,
        4 => board.deadline - 1,
        5 => board.deadline + 1,
        6 => rng.between(1, MOST_DEADLINE),
        _ => rng.between(fastest, 2 * fastest),
    };
    ticks.clamp(1, MOST_DEADLINE)
}

/// A deadline of which so many ticks are usable.
fn due(board: &Board, usable: u32) -> u32 {
    match board.rule {
        Rule::A => usable,
        Rule::B => usable + usable / 63,
    }
}

/// A part of the board; once in 30 any number that can be read.
fn part(board: &Board, rng: &mut Rng) -> usize {
    if rng.once_in(30) {
        return rng.below(MOST_PARTS);
    }
    rng.below(board.parts())
}

/// Mostly along the times of the board, so that no loop comes of it.
fn add(board: &Board, rng: &mut Rng) -> Order {
    let (from, to) = (part(board, rng), part(board, rng));
    if rng.once_in(5) || from.max(to) >= board.parts() {
        return Order::Add(from, to);
    }
    let starts = board.times(&board.fastest()).starts;
    if starts[from] <= starts[to] {
        Order::Add(from, to)
    } else {
        Order::Add(to, from)
    }
}

fn remove(board: &Board, rng: &mut Rng) -> Order {
    let links: Vec<_> = board.links.iter().copied().collect();
    if links.is_empty() || rng.once_in(5) {
        return Order::Remove(part(board, rng), part(board, rng));
    }
    let (from, to) = rng.one_of(&links);
    Order::Remove(from, to)
}

/// Mostly not much slower at its fastest than the curve it replaces.
fn replace(board: &Board, rng: &mut Rng) -> Order {
    let part = part(board, rng);
    let present = board.curves.get(part).map_or(MOST_FASTEST, |curve| curve.fastest);
    let most = if rng.once_in(4) { MOST_FASTEST } else { (present + 5).min(MOST_FASTEST) };
    Order::Replace(part, curve(rng.one_of(&CURVES), most, rng))
}
