//! The cheapest budget a third way, with no flow through the board at all.
//!
//! All parts begin at their fastest and as early as can be. Then, tick by
//! tick, the set of starts and ends is moved one later that lowers the total
//! most, of equal sets the least one, until no set lowers it. The total is an
//! L-natural convex function of starts and ends, so this ends at the earliest
//! of all cheapest times (Murota, steepest ascent from below). The best set is
//! a least cut.
//!
//! It takes a step for each tick of the latest move, so it is for tests.

use crate::board::{Board, Curve};
use crate::solve::Budget;
use std::collections::VecDeque;

/// More than all savings of a tick together: never cut.
const NEVER: i64 = 1_000_000_000;

/// A network whose least cut is wanted. Arc 2k+1 leads back along arc 2k.
struct Cut {
    to: Vec<usize>,
    room: Vec<i64>,
    leaving: Vec<Vec<usize>>,
}

const SOURCE: usize = 0;
const SINK: usize = 1;

fn start_of(part: usize) -> usize {
    2 * part + 2
}

fn end_of(part: usize) -> usize {
    2 * part + 3
}

impl Cut {
    fn with(parts: usize) -> Cut {
        Cut { to: Vec::new(), room: Vec::new(), leaving: vec![Vec::new(); 2 * parts + 2] }
    }

    /// It costs `price` to have `from` in the set and `to` not.
    fn arc(&mut self, from: usize, to: usize, price: i64) {
        for (here, there, room) in [(from, to, price), (to, from, 0)] {
            self.leaving[here].push(self.to.len());
            self.to.push(there);
            self.room.push(room);
        }
    }

    /// The arcs by which nodes are first reached from the source.
    fn reached(&self) -> Vec<Option<usize>> {
        let mut by = vec![None; self.leaving.len()];
        let mut queue = VecDeque::from([SOURCE]);
        while let Some(node) = queue.pop_front() {
            for &arc in &self.leaving[node] {
                let next = self.to[arc];
                if self.room[arc] > 0 && next != SOURCE && by[next].is_none() {
                    by[next] = Some(arc);
                    queue.push_back(next);
                }
            }
        }
        by
    }

    /// Fills the network; what is then still reached is the least of all sets
    /// with the least price.
    fn least_set(&mut self) -> Vec<bool> {
        loop {
            let by = self.reached();
            let mut way = Vec::new();
            let mut node = SINK;
            while let Some(arc) = by[node] {
                way.push(arc);
                node = self.to[arc ^ 1];
            }
            if way.is_empty() {
                return by.iter().map(Option::is_some).collect();
            }
            let units = way.iter().map(|&arc| self.room[arc]).min().unwrap_or(0);
            for arc in way {
                self.room[arc] -= units;
                self.room[arc ^ 1] += units;
            }
        }
    }
}

/// What the tick from `delay - 1` to `delay` saves; nothing past the slowest.
fn saving_of_tick(curve: &Curve, delay: u32) -> i64 {
    let mut reached = curve.fastest;
    for run in &curve.runs {
        reached += run.length;
        if delay <= reached {
            return i64::from(run.saving);
        }
    }
    0
}

struct Climb<'a> {
    board: &'a Board,
    starts: Vec<u32>,
    ends: Vec<u32>,
}

impl Climb<'_> {
    /// Moving the end alone saves the next tick, moving the start alone loses
    /// the last one. With `n` for the next and `l` for the last saving that is
    /// n off for the end, n on for the start, and l - n more for a start that
    /// moves without its end.
    fn price_part(&self, cut: &mut Cut, part: usize) {
        let curve = &self.board.curves[part];
        let delay = self.ends[part] - self.starts[part];
        let next = saving_of_tick(curve, delay + 1);
        let last = if delay == curve.fastest { NEVER } else { saving_of_tick(curve, delay) };
        cut.arc(SOURCE, end_of(part), next);
        cut.arc(start_of(part), SINK, next);
        cut.arc(start_of(part), end_of(part), last - next);
        if self.ends[part] == self.board.usable() {
            cut.arc(end_of(part), SINK, NEVER);
        }
    }

    /// The starts and ends to be moved, by node.
    fn best_move(&self) -> Vec<bool> {
        let mut cut = Cut::with(self.board.parts());
        for part in 0..self.board.parts() {
            self.price_part(&mut cut, part);
        }
        for &link in &self.board.links {
            if self.board.arrival(link, &self.ends) == self.starts[link.1] {
                cut.arc(end_of(link.0), start_of(link.1), NEVER);
            }
        }
        cut.least_set()
    }

    fn step(&mut self) -> bool {
        let moved = self.best_move();
        for part in 0..self.board.parts() {
            self.starts[part] += u32::from(moved[start_of(part)]);
            self.ends[part] += u32::from(moved[end_of(part)]);
        }
        moved.contains(&true)
    }
}

/// The held budget of a board without loops whose fastest path is in time.
pub fn climb(board: &Board) -> Budget {
    let fastest = board.times(&board.fastest());
    let mut climb = Climb { board, starts: fastest.starts, ends: fastest.ends };
    while climb.step() {}
    let delays = climb.ends.iter().zip(&climb.starts).map(|(end, start)| end - start).collect();
    Budget::of(board, delays).expect("no end waits past its slowest")
}
