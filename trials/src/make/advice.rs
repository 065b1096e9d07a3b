//! Advice for the solver: the loads of parts, links, entries and exits, each
//! of four bytes, lowest first. A solver may take it or leave it; the budget
//! is the same. Any bytes are advice, so most of it here is bad.

use super::{boards, orders};
use crate::board::{Board, RULE_A};
use crate::desk::{Desk, Tally};
use crate::file::{write_design, write_order};
use crate::rng::Rng;
use crate::solve::loads;

/// Room for 64 parts, 256 links, 64 entries and 64 exits.
pub const LOADS: usize = 448;

#[derive(Clone, Copy, Debug, PartialEq, Eq)]
pub enum Kind {
    /// A flow of this very board that proves its budget.
    Right,
    /// One of the board as it was before an order.
    Stale,
    Random,
    /// A right one with something small, or something huge, put wrong.
    Hostile,
    /// One that conserves, with something huge sent along a whole path.
    Huge,
    /// One that conserves, with loads moved from one path to another, past 0
    /// where the path has less.
    Cyclic,
    /// One that proves the budget of quite another board.
    Foreign,
}

pub const KINDS: [Kind; 7] =
    [Kind::Right, Kind::Stale, Kind::Random, Kind::Hostile, Kind::Huge, Kind::Cyclic, Kind::Foreign];

pub fn advice(kind: Kind, board: &Board, rng: &mut Rng) -> Vec<u8> {
    let right = flow_of(board);
    let loads = match kind {
        Kind::Right => right,
        Kind::Stale => stale(board, rng).map_or(right, |before| flow_of(&before)),
        Kind::Random => random(rng),
        Kind::Hostile => hostile(right, board, rng),
        Kind::Huge => huge(right, board, rng),
        Kind::Cyclic => cyclic(right, board, rng),
        Kind::Foreign => flow_of(&boards::board(rng)),
    };
    let mut bytes: Vec<u8> = loads.iter().flat_map(|load| load.to_le_bytes()).collect();
    if kind == Kind::Hostile && rng.once_in(8) {
        bytes.truncate(rng.below(bytes.len()));
    }
    bytes
}

/// No loads for a board that has no allowed budget.
fn flow_of(board: &Board) -> Vec<u32> {
    let mut all = match board.check_loops_and_times() {
        Ok(()) => loads(board),
        Err(_) => Vec::new(),
    };
    all.resize(LOADS, 0);
    all
}

/// A board that is one order away from this one.
fn stale(board: &Board, rng: &mut Rng) -> Option<Board> {
    let (mut desk, mut tally) = (Desk::default(), Tally::default());
    desk.load(RULE_A, &write_design(board), &mut tally).ok()?;
    (0..8).find(|_| desk.order(&write_order(&orders::order(board, rng)), &mut tally).verdict.is_ok())?;
    desk.held().ok().map(|held| held.board.clone())
}

fn random(rng: &mut Rng) -> Vec<u32> {
    let most = rng.one_of(&[1, 1_000, 64_000, 64_001, u32::MAX - 1]);
    (0..LOADS).map(|_| rng.between(0, most)).collect()
}

fn hostile(right: Vec<u32>, board: &Board, rng: &mut Rng) -> Vec<u32> {
    let mut loads = right;
    let part = rng.below(board.parts());
    match rng.below(7) {
        0 => loads[rng.below(LOADS)] ^= 1,
        1 => loads = vec![u32::MAX; LOADS],
        2 => loads.iter_mut().for_each(|load| *load *= 2),
        3 => loads = vec![0; LOADS],
        4 => loads.rotate_right(1),
        // these two conserve: more goes through one part, from its entry to its exit
        5 => through(&mut loads, board, part, 1),
        _ => through(&mut loads, board, part, u32::MAX / 2),
    }
    loads
}

fn huge(right: Vec<u32>, board: &Board, rng: &mut Rng) -> Vec<u32> {
    let mut loads = right;
    let more = rng.one_of(&[64_000, 64_001, 1 << 29, 1 << 30, 1 << 31, u32::MAX - 64_000, u32::MAX]);
    send(&mut loads, &path(board, rng), more);
    loads
}

fn cyclic(right: Vec<u32>, board: &Board, rng: &mut Rng) -> Vec<u32> {
    let mut loads = right;
    let less = rng.one_of(&[1, 5, 1_000, 64_000, 1 << 31]);
    send(&mut loads, &path(board, rng), less);
    send(&mut loads, &path(board, rng), less.wrapping_neg());
    loads
}

/// The places of the arcs of some path: an entry, parts and links by turns, an
/// exit. A loop is left after as many links as there are parts.
fn path(board: &Board, rng: &mut Rng) -> Vec<usize> {
    let (parts, links) = (board.parts(), board.links.len());
    let mut part = rng.below(parts);
    let mut places = vec![parts + links + part, part];
    for _ in 0..parts {
        let on: Vec<(usize, usize)> = board
            .links
            .iter()
            .enumerate()
            .filter(|(_, link)| link.0 == part)
            .map(|(k, link)| (k, link.1))
            .collect();
        if on.is_empty() || rng.once_in(8) {
            break;
        }
        let (link, next) = rng.one_of(&on);
        places.extend([parts + link, next]);
        part = next;
    }
    places.push(parts + links + parts + part);
    places
}

fn send(loads: &mut [u32], places: &[usize], more: u32) {
    for &place in places {
        loads[place] = loads[place].wrapping_add(more);
    }
}

/// More through one part, from its entry to its exit.
fn through(loads: &mut [u32], board: &Board, part: usize, more: u32) {
    let entry = board.parts() + board.links.len() + part;
    send(loads, &[part, entry, entry + board.parts()], more);
}
