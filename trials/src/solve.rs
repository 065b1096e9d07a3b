//! The cheapest budget by another way than the proved one.
//!
//! `cheapest` pushes flow from start to end along longest paths, one after
//! another, until no path is longer than the deadline (successive shortest
//! paths, costs being minus the ticks, paths found by Bellman-Ford with a
//! queue). The network is the parallel-arc one of the export for flow solvers:
//! a part carries as many units at its slowest delay as its least saving, then
//! the rise in saving at each earlier bend, then any number at its fastest.
//!
//! The flow also proves the total: what it costs bounds every allowed budget
//! from below, and `cheapest` checks that the budget read off meets the bound.
//! The cheapest budgets are just the times that agree with the flow, arc by
//! arc, so the earliest of them is a longest path in what room the flow leaves.
//!
//! `every_cheapest` tries all delays of a small board and knows nothing of this.

use crate::board::Board;
use std::collections::VecDeque;

#[derive(Clone, Debug, PartialEq, Eq)]
pub struct Budget {
    pub delays: Vec<u32>,
    pub starts: Vec<u32>,
    pub ends: Vec<u32>,
    pub total: u32,
}

impl Budget {
    /// `None` where a delay is outside its curve; the deadline is not asked.
    pub fn of(board: &Board, delays: Vec<u32>) -> Option<Budget> {
        let total = board.total(&delays)?;
        let times = board.times(&delays);
        Some(Budget { delays, starts: times.starts, ends: times.ends, total })
    }
}

/// More units than any flow can need: the savings at the fastest of 64 parts
/// add up to 64,000 at most.
const ANY: i64 = 1_000_000;

struct Arc {
    to: usize,
    ticks: i64,
    room: i64,
}

/// Arc 2k leads along, arc 2k+1 leads back with what flow there is as room.
struct Network {
    arcs: Vec<Arc>,
    leaving: Vec<Vec<usize>>,
    parts: usize,
    deadline: i64,
}

impl Network {
    fn of(board: &Board) -> Network {
        let parts = board.parts();
        let mut network = Network {
            arcs: Vec::new(),
            leaving: vec![Vec::new(); 2 * parts + 2],
            parts,
            deadline: i64::from(board.usable()),
        };
        for part in 0..parts {
            network.add_part(board, part);
        }
        for &(from, to) in &board.links {
            let ticks = i64::from(board.wire((from, to)));
            network.add(network.end_of(from), network.start_of(to), ticks, ANY);
        }
        for part in 0..parts {
            network.add(network.start(), network.start_of(part), 0, ANY);
            network.add(network.end_of(part), network.end(), 0, ANY);
        }
        network
    }

    fn start_of(&self, part: usize) -> usize {
        2 * part
    }

    fn end_of(&self, part: usize) -> usize {
        2 * part + 1
    }

    fn start(&self) -> usize {
        2 * self.parts
    }

    fn end(&self) -> usize {
        2 * self.parts + 1
    }

    fn add(&mut self, from: usize, to: usize, ticks: i64, room: i64) {
        self.leaving[from].push(self.arcs.len());
        self.arcs.push(Arc { to, ticks, room });
        self.leaving[to].push(self.arcs.len());
        self.arcs.push(Arc { to: from, ticks: -ticks, room: 0 });
    }

    fn add_part(&mut self, board: &Board, part: usize) {
        let curve = &board.curves[part];
        let (from, to) = (self.start_of(part), self.end_of(part));
        let mut delay = i64::from(curve.slowest());
        let mut saving = 0;
        for run in curve.runs.iter().rev() {
            self.add(from, to, delay, i64::from(run.saving) - saving);
            saving = i64::from(run.saving);
            delay -= i64::from(run.length);
        }
        self.add(from, to, delay, ANY);
    }

    /// The longest way from the start to each node over arcs with room, and
    /// the arc by which it comes. There is no way around that gains ticks, as
    /// flow is only ever pushed along longest ways.
    fn longest(&self) -> (Vec<Option<i64>>, Vec<usize>) {
        let mut ticks = vec![None; self.leaving.len()];
        let mut by = vec![usize::MAX; self.leaving.len()];
        let mut queued = vec![false; self.leaving.len()];
        let mut queue = VecDeque::from([self.start()]);
        ticks[self.start()] = Some(0);
        while let Some(node) = queue.pop_front() {
            queued[node] = false;
            let here: i64 = ticks[node].expect("a queued node has been reached");
            for &index in &self.leaving[node] {
                let arc = &self.arcs[index];
                let there = Some(here + arc.ticks);
                if arc.room > 0 && ticks[arc.to] < there {
                    ticks[arc.to] = there;
                    by[arc.to] = index;
                    if !queued[arc.to] {
                        queued[arc.to] = true;
                        queue.push_back(arc.to);
                    }
                }
            }
        }
        (ticks, by)
    }

    /// The arcs of the way to the end, last first.
    fn way(&self, by: &[usize]) -> Vec<usize> {
        let mut way = Vec::new();
        let mut node = self.end();
        while node != self.start() {
            way.push(by[node]);
            node = self.arcs[by[node] ^ 1].to;
        }
        way
    }

    fn push(&mut self, way: &[usize]) -> i64 {
        let units = way.iter().map(|&index| self.arcs[index].room).min();
        let units = units.expect("a way has arcs");
        assert!(units < ANY / 2, "a path at its fastest exceeds the deadline");
        for &index in way {
            self.arcs[index].room -= units;
            self.arcs[index ^ 1].room += units;
        }
        units
    }

    /// Pushes until the longest way is within the deadline. Gives back the
    /// units pushed and how many ticks beyond the deadline they bore in all.
    fn fill(&mut self) -> (i64, i64) {
        let (mut units, mut beyond) = (0, 0);
        loop {
            let (ticks, by) = self.longest();
            let longest = ticks[self.end()].expect("a board has a part");
            if longest <= self.deadline {
                return (units, beyond);
            }
            let pushed = self.push(&self.way(&by));
            units += pushed;
            beyond += pushed * (longest - self.deadline);
        }
    }

    /// The least times that agree with the flow. Where flow goes to the end,
    /// the end is at the deadline: one arc more, from start to end.
    fn least_times(&mut self, units: i64) -> Vec<i64> {
        if units > 0 {
            self.add(self.start(), self.end(), self.deadline, ANY);
        }
        let (ticks, _) = self.longest();
        ticks.into_iter().map(|t| t.expect("all parts are reached from the start")).collect()
    }
}

/// The held budget of a board without loops whose fastest path is in time.
pub fn cheapest(board: &Board) -> Budget {
    let mut network = Network::of(board);
    let (units, beyond) = network.fill();
    let times = network.least_times(units);
    let delays: Vec<u32> =
        (0..board.parts()).map(|part| (times[2 * part + 1] - times[2 * part]) as u32).collect();
    let budget = Budget::of(board, delays).expect("the times give delays on the curves");
    for part in 0..board.parts() {
        assert_eq!(i64::from(budget.starts[part]), times[2 * part], "a start waits");
    }
    assert_eq!(i64::from(budget.total), least_possible(board) + beyond, "the flow proves another total");
    budget
}

/// A flow that proves the held budget of such a board: the loads of its parts,
/// of its links, of the parts' entries and then of their exits.
pub fn loads(board: &Board) -> Vec<u32> {
    let mut network = Network::of(board);
    network.fill();
    let mut loads: Vec<u32> = Vec::new();
    let mut next = network.arcs.iter().skip(1).step_by(2).map(|back| back.room as u32);
    for curve in &board.curves {
        loads.push(next.by_ref().take(curve.runs.len() + 1).sum());
    }
    loads.extend(next.by_ref().take(board.links.len()));
    let (entries, exits): (Vec<_>, Vec<_>) = next.enumerate().partition(|(place, _)| place % 2 == 0);
    loads.extend(entries.into_iter().chain(exits).map(|(_, load)| load));
    loads
}

/// The total with all parts at their slowest, deadline or not.
fn least_possible(board: &Board) -> i64 {
    board.curves.iter().map(|curve| i64::from(curve.power - curve.savings())).sum()
}

/// How many budgets a board has, allowed or not, if no more than `most`.
pub fn choices(board: &Board, most: u64) -> Option<u64> {
    board.curves.iter().try_fold(1u64, |product, curve| {
        let product = product * u64::from(curve.slowest() - curve.fastest + 1);
        (product <= most).then_some(product)
    })
}

/// All allowed budgets of least total, by trying every delay of every part.
pub fn every_cheapest(board: &Board) -> Vec<Budget> {
    let mut best: Vec<Budget> = Vec::new();
    let mut next = Some(board.fastest());
    while let Some(delays) = next {
        next = following(board, &delays);
        let budget = Budget::of(board, delays).expect("delays are counted within the curves");
        if budget.ends.iter().any(|&end| end > board.usable()) {
            continue;
        }
        let least = best.first().map(|one| one.total);
        if least.is_none_or(|least| budget.total < least) {
            best.clear();
        }
        if least.is_none_or(|least| budget.total <= least) {
            best.push(budget);
        }
    }
    best
}

/// Counts delays up like a number with one digit for each part.
fn following(board: &Board, delays: &[u32]) -> Option<Vec<u32>> {
    let mut next = delays.to_vec();
    for (part, curve) in board.curves.iter().enumerate() {
        if next[part] < curve.slowest() {
            next[part] += 1;
            return Some(next);
        }
        next[part] = curve.fastest;
    }
    None
}

/// Of some budgets, those whose ends are all no later than those of every
/// other. The paper says that among the cheapest there is exactly one.
pub fn earliest(budgets: &[Budget]) -> Vec<&Budget> {
    let mut least: Vec<u32> = budgets.first().map_or(Vec::new(), |one| one.ends.clone());
    for budget in budgets {
        for (end, &other) in least.iter_mut().zip(&budget.ends) {
            *end = other.min(*end);
        }
    }
    budgets.iter().filter(|one| one.ends == least).collect()
}
