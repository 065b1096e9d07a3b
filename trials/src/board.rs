//! The board: curves, links, times, loops and the path that is too slow.

use crate::refusal::Refusal;
use std::collections::BTreeSet;

pub const MOST_PARTS: usize = 64;
pub const MOST_LINKS: usize = 256;
pub const MOST_RUNS: usize = 4;
pub const MOST_DEADLINE: u32 = 4_095;
pub const MOST_FASTEST: u32 = 1_023;
pub const MOST_POWER: u32 = 20_000_000;
pub const MOST_LENGTH: u32 = 255;
pub const MOST_SAVING: u32 = 1_000;

#[derive(Clone, Copy, Debug, PartialEq, Eq)]
pub struct Run {
    pub length: u32,
    pub saving: u32,
}

#[derive(Clone, Debug, PartialEq, Eq)]
pub struct Curve {
    pub fastest: u32,
    /// Power at the fastest, in microwatts.
    pub power: u32,
    pub runs: Vec<Run>,
}

impl Curve {
    pub fn slowest(&self) -> u32 {
        self.fastest + self.runs.iter().map(|run| run.length).sum::<u32>()
    }

    /// All savings over all ticks.
    pub fn savings(&self) -> u32 {
        self.runs.iter().map(|run| run.length * run.saving).sum()
    }

    /// The power at a delay, tick by tick as the paper says it; `None` outside
    /// the curve.
    pub fn power_at(&self, delay: u32) -> Option<u32> {
        if delay < self.fastest || delay > self.slowest() {
            return None;
        }
        let ticks = (delay - self.fastest) as usize;
        let savings = self.runs.iter().flat_map(|run| (0..run.length).map(|_| run.saving));
        Some(self.power - savings.take(ticks).sum::<u32>())
    }

    pub fn is_well_formed(&self) -> bool {
        (1..=MOST_FASTEST).contains(&self.fastest)
            && self.power <= MOST_POWER
            && self.runs.len() <= MOST_RUNS
            && self
                .runs
                .iter()
                .all(|run| (1..=MOST_LENGTH).contains(&run.length) && (1..=MOST_SAVING).contains(&run.saving))
            && self.runs.windows(2).all(|two| two[0].saving > two[1].saving)
            && self.savings() <= self.power
    }
}

/// Which ticks of a deadline are usable: under B one in every full 64 is guard.
#[derive(Clone, Copy, Debug, Default, PartialEq, Eq)]
pub enum Rule {
    #[default]
    A,
    B,
}

/// What a load names for rule A.
pub const RULE_A: u64 = 0;

impl Rule {
    /// The rule of a number: refusal 22.
    pub fn named(number: u64) -> Result<Rule, Refusal> {
        match number {
            0 => Ok(Rule::A),
            1 => Ok(Rule::B),
            _ => Err(Refusal::at(22, 0)),
        }
    }
}

#[derive(Clone, Debug, PartialEq, Eq)]
pub struct Board {
    pub rule: Rule,
    pub deadline: u32,
    pub curves: Vec<Curve>,
    /// An ordered set: ascending by from, then to, and no link twice.
    pub links: BTreeSet<(usize, usize)>,
}

/// When a part starts and ends under some delays.
#[derive(Clone, Debug, PartialEq, Eq)]
pub struct Times {
    pub starts: Vec<u32>,
    pub ends: Vec<u32>,
}

impl Board {
    pub fn parts(&self) -> usize {
        self.curves.len()
    }

    /// Every range of the paper, but neither loops nor times.
    pub fn is_well_formed(&self) -> bool {
        (1..=MOST_DEADLINE).contains(&self.deadline)
            && (1..=MOST_PARTS).contains(&self.parts())
            && self.links.len() <= MOST_LINKS
            && self.curves.iter().all(Curve::is_well_formed)
            && self.links.iter().all(|&(from, to)| from != to && from < self.parts() && to < self.parts())
    }

    /// The ticks that a path may take.
    pub fn usable(&self) -> u32 {
        match self.rule {
            Rule::A => self.deadline,
            Rule::B => self.deadline - self.deadline / 64,
        }
    }

    /// The ticks of a link itself: none.
    pub fn wire(&self, _link: (usize, usize)) -> u32 {
        0
    }

    /// When a link brings the end of its first part to its second.
    pub fn arrival(&self, link: (usize, usize), ends: &[u32]) -> u32 {
        ends[link.0] + self.wire(link)
    }

    pub fn fastest(&self) -> Vec<u32> {
        self.curves.iter().map(|curve| curve.fastest).collect()
    }

    pub fn slowest(&self) -> Vec<u32> {
        self.curves.iter().map(Curve::slowest).collect()
    }

    /// Times on a board without loops: links push starts back until none does.
    pub fn times(&self, delays: &[u32]) -> Times {
        let mut starts = vec![0; self.parts()];
        let mut moved = true;
        while moved {
            moved = false;
            for &(from, to) in &self.links {
                let arrival = starts[from] + delays[from] + self.wire((from, to));
                if starts[to] < arrival {
                    starts[to] = arrival;
                    moved = true;
                }
            }
        }
        let ends = starts.iter().zip(delays).map(|(s, d)| s + d).collect();
        Times { starts, ends }
    }

    /// The sum of the powers, or `None` where a delay is outside its curve.
    pub fn total(&self, delays: &[u32]) -> Option<u32> {
        self.curves.iter().zip(delays).map(|(curve, &delay)| curve.power_at(delay)).sum()
    }

    /// All parts that links lead to from `part`, `part` included only where a
    /// loop leads back to it.
    fn after(&self, part: usize) -> BTreeSet<usize> {
        let mut found = BTreeSet::new();
        let mut open = vec![part];
        while let Some(here) = open.pop() {
            for &(_, to) in self.links.range((here, 0)..(here + 1, 0)) {
                if found.insert(to) {
                    open.push(to);
                }
            }
        }
        found
    }

    pub fn downstream(&self, part: usize) -> BTreeSet<usize> {
        let mut cone = self.after(part);
        cone.insert(part);
        cone
    }

    /// Said through `downstream`, so that the two cannot disagree unseen.
    pub fn upstream(&self, part: usize) -> BTreeSet<usize> {
        (0..self.parts()).filter(|&other| self.downstream(other).contains(&part)).collect()
    }

    /// Upstream and downstream of every part; each downstream is found once.
    pub fn cones(&self) -> Vec<(BTreeSet<usize>, BTreeSet<usize>)> {
        let down: Vec<_> = (0..self.parts()).map(|part| self.downstream(part)).collect();
        let up = |part| (0..self.parts()).filter(|&other| down[other].contains(&part)).collect();
        (0..self.parts()).map(|part| (up(part), down[part].clone())).collect()
    }

    pub fn lowest_part_on_a_loop(&self) -> Option<usize> {
        (0..self.parts()).find(|&part| self.after(part).contains(&part))
    }

    /// The greatest end with all parts at their fastest.
    pub fn fastest_path_ticks(&self) -> u32 {
        greatest(&self.times(&self.fastest()).ends)
    }

    /// The path that the paper fixes for refusal 10, first part to last.
    pub fn slow_path(&self) -> Vec<usize> {
        let ends = self.times(&self.fastest()).ends;
        let mut path = Vec::new();
        let mut next = lowest_of_greatest(ends.iter().copied().enumerate());
        while let Some(part) = next {
            path.push(part);
            let before = (0..self.parts()).filter(|&other| self.links.contains(&(other, part)));
            next = lowest_of_greatest(before.map(|other| (other, self.arrival((other, part), &ends))));
        }
        path.reverse();
        path
    }

    /// Refusals 9 and 10, which come after all reading.
    pub fn check_loops_and_times(&self) -> Result<(), Refusal> {
        if let Some(part) = self.lowest_part_on_a_loop() {
            return Err(Refusal::at(9, part));
        }
        let ticks = self.fastest_path_ticks();
        if ticks > self.usable() {
            let mut refusal = Refusal::at(10, ticks as usize);
            refusal.path = self.slow_path();
            return Err(refusal);
        }
        Ok(())
    }
}

fn greatest(ends: &[u32]) -> u32 {
    ends.iter().copied().max().unwrap_or(0)
}

/// `parts` ascend, each with its ticks, so the first that no other exceeds is
/// the lowest.
fn lowest_of_greatest(parts: impl Iterator<Item = (usize, u32)>) -> Option<usize> {
    let parts: Vec<(usize, u32)> = parts.collect();
    let most = parts.iter().map(|&(_, ticks)| ticks).max()?;
    parts.into_iter().find(|&(_, ticks)| ticks == most).map(|(part, _)| part)
}
