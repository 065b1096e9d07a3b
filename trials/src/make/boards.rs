//! Boards of every size and family.

use crate::board::*;
use crate::rng::Rng;
use std::collections::BTreeSet;

#[derive(Clone, Copy, Debug, PartialEq, Eq)]
pub enum Shape {
    OnePart,
    NoLinks,
    Chain,
    Tree,
    Layered,
    Dense,
    Wide,
    Loose,
    Looped,
}

pub const SHAPES: [Shape; 9] = [
    Shape::OnePart,
    Shape::NoLinks,
    Shape::Chain,
    Shape::Tree,
    Shape::Layered,
    Shape::Dense,
    Shape::Wide,
    Shape::Loose,
    Shape::Looped,
];

#[derive(Clone, Copy, Debug, PartialEq, Eq)]
pub enum Curves {
    Mixed,
    Flat,
    /// All parts alike, so that many budgets cost the same.
    Ties,
    Small,
    /// Every number at the end of its range.
    Greatest,
}

pub const CURVES: [Curves; 5] = [Curves::Mixed, Curves::Flat, Curves::Ties, Curves::Small, Curves::Greatest];

#[derive(Clone, Copy, Debug, PartialEq, Eq)]
pub enum Haste {
    /// One tick less than the fastest path.
    TooTight,
    /// Exactly the fastest path.
    Tightest,
    Between,
    /// Exactly what all parts at their slowest need.
    AllSlowest,
    Unhurried,
}

pub const HASTES: [Haste; 5] =
    [Haste::TooTight, Haste::Tightest, Haste::Between, Haste::AllSlowest, Haste::Unhurried];

/// A board of any size and family; about one in eight is refused.
pub fn board(rng: &mut Rng) -> Board {
    if rng.once_in(20) {
        return board_of(Shape::Looped, rng.one_of(&CURVES), Haste::Between, rng);
    }
    if rng.once_in(20) {
        return board_of(rng.one_of(&SHAPES[..8]), rng.one_of(&CURVES), Haste::TooTight, rng);
    }
    board_in_time(rng)
}

/// A board without loops, nearly always in time (a long path of the greatest
/// curves is not). Deadlines between the ends try the solver most.
pub fn board_in_time(rng: &mut Rng) -> Board {
    let haste = if rng.once_in(2) { Haste::Between } else { rng.one_of(&HASTES[1..]) };
    let curves = if rng.once_in(2) { Curves::Mixed } else { rng.one_of(&CURVES) };
    board_of(rng.one_of(&SHAPES[..8]), curves, haste, rng)
}

pub fn board_of(shape: Shape, curves: Curves, haste: Haste, rng: &mut Rng) -> Board {
    let parts = if shape == Shape::OnePart { 1 } else { rng.between(1, MOST_PARTS as u32) as usize };
    sized_board(parts, shape, curves, haste, rng)
}

/// A board whose file has every field: a part with a run, and a link.
pub fn with_every_field() -> Board {
    let sloped = Curve { fastest: 2, power: 100, runs: vec![Run { length: 2, saving: 20 }] };
    Board { rule: Rule::A, deadline: 10, curves: vec![sloped, flat(1)], links: BTreeSet::from([(0, 1)]) }
}

/// A board with so few budgets that most often all can be tried.
pub fn tiny_board(rng: &mut Rng) -> Board {
    let parts = rng.between(1, 7) as usize;
    let curves = rng.one_of(&[Curves::Small, Curves::Ties]);
    let haste = if rng.once_in(4) { rng.one_of(&HASTES[1..]) } else { Haste::Between };
    sized_board(parts, rng.one_of(&SHAPES[1..8]), curves, haste, rng)
}

pub fn sized_board(parts: usize, shape: Shape, curves: Curves, haste: Haste, rng: &mut Rng) -> Board {
    let links = links(parts, shape, rng);
    let any = rng.between(1, MOST_DEADLINE);
    let mut board = Board { rule: Rule::A, deadline: any, curves: vec![flat(1); parts], links };
    if board.lowest_part_on_a_loop().is_some() {
        board.curves = some_curves(parts, curves, MOST_FASTEST, rng);
        return board;
    }
    let depth = board.fastest_path_ticks();
    let most_fastest = if rng.once_in(8) { MOST_FASTEST } else { MOST_FASTEST.min(MOST_DEADLINE / depth) };
    board.curves = some_curves(parts, curves, most_fastest, rng);
    board.deadline = deadline(&board, haste, rng);
    board
}

fn flat(fastest: u32) -> Curve {
    Curve { fastest, power: 0, runs: Vec::new() }
}

/// Links from earlier to later in some order of the parts, so that a link may
/// lead to a lower number. Only `Looped` adds links that lead back.
fn links(parts: usize, shape: Shape, rng: &mut Rng) -> BTreeSet<(usize, usize)> {
    let mut pairs = match shape {
        Shape::OnePart | Shape::NoLinks => Vec::new(),
        Shape::Chain => (1..parts).map(|next| (next - 1, next)).collect(),
        Shape::Tree => tree(parts, rng),
        Shape::Layered => layers(parts, rng),
        Shape::Dense => forward(parts, MOST_LINKS, rng),
        Shape::Wide => wide(parts, rng),
        Shape::Loose | Shape::Looped => forward(parts, rng.between(1, 2 * parts as u32) as usize, rng),
    };
    if shape == Shape::Looped {
        pairs.extend(ring(parts, rng));
    }
    let names = if rng.once_in(3) { (0..parts).collect() } else { rng.shuffled(parts) };
    let named = pairs.into_iter().map(|(from, to)| (names[from], names[to]));
    named.filter(|(from, to)| from != to).collect::<BTreeSet<_>>().into_iter().take(MOST_LINKS).collect()
}

/// One part leads to all others, or all lead to one.
fn tree(parts: usize, rng: &mut Rng) -> Vec<(usize, usize)> {
    let inward = rng.once_in(2);
    let branch = |next| {
        let before = rng.below(next);
        if inward {
            (next, before)
        } else {
            (before, next)
        }
    };
    (1..parts).map(branch).collect()
}

/// Each part leads to one to three parts of the next layer.
fn layers(parts: usize, rng: &mut Rng) -> Vec<(usize, usize)> {
    let width = rng.between(1, 9) as usize;
    let mut pairs = Vec::new();
    for part in 0..parts {
        let next = (part / width + 1) * width;
        let many = width.min(parts.saturating_sub(next));
        for _ in 0..rng.between(1, 3) {
            if many > 0 {
                pairs.push((part, next + rng.below(many)));
            }
        }
    }
    pairs
}

/// A first half that leads to a second half, as a group of parts side by side.
fn wide(parts: usize, rng: &mut Rng) -> Vec<(usize, usize)> {
    let first = parts.div_ceil(2);
    if first == parts {
        return Vec::new();
    }
    let pair = |_| (rng.below(first), first + rng.below(parts - first));
    (0..2 * parts).map(pair).collect()
}

/// `count` links from earlier to later, or all that there are if fewer.
fn forward(parts: usize, count: usize, rng: &mut Rng) -> Vec<(usize, usize)> {
    let all: Vec<_> = (0..parts).flat_map(|to| (0..to).map(move |from| (from, to))).collect();
    let chosen = rng.shuffled(all.len());
    chosen.into_iter().take(count).map(|index| all[index]).collect()
}

/// A loop through two to six parts.
fn ring(parts: usize, rng: &mut Rng) -> Vec<(usize, usize)> {
    let around = rng.shuffled(parts);
    let length = parts.min(rng.between(2, 6) as usize);
    (0..length).map(|step| (around[step], around[(step + 1) % length])).collect()
}

fn some_curves(parts: usize, style: Curves, most_fastest: u32, rng: &mut Rng) -> Vec<Curve> {
    if style == Curves::Ties {
        return vec![curve(style, most_fastest, rng); parts];
    }
    (0..parts).map(|_| curve(style, most_fastest, rng)).collect()
}

pub fn curve(style: Curves, most_fastest: u32, rng: &mut Rng) -> Curve {
    let fastest = rng.between(1, most_fastest);
    match style {
        Curves::Flat => Curve { fastest, power: rng.between(0, MOST_POWER), runs: Vec::new() },
        Curves::Small | Curves::Ties => {
            let least_runs = usize::from(style == Curves::Ties);
            let runs = runs(least_runs + rng.below(3 - least_runs), 3, 6, rng);
            powered(rng.between(1, 3.min(most_fastest)), runs, 10, rng)
        }
        Curves::Mixed => {
            let longest = rng.one_of(&[4, 30, MOST_LENGTH]);
            let runs = runs(rng.below(MOST_RUNS + 1), longest, MOST_SAVING, rng);
            powered(fastest, runs, 1_000, rng)
        }
        Curves::Greatest => {
            let runs = (0..4).map(|run| Run { length: MOST_LENGTH, saving: MOST_SAVING - run });
            powered(most_fastest, runs.collect(), 0, rng)
        }
    }
}

/// Runs with strictly falling savings.
fn runs(count: usize, longest: u32, most_saving: u32, rng: &mut Rng) -> Vec<Run> {
    let mut savings = BTreeSet::new();
    while savings.len() < count {
        savings.insert(rng.between(1, most_saving));
    }
    let run = |saving| Run { length: rng.between(1, longest), saving };
    savings.into_iter().rev().map(run).collect()
}

/// Now and then with exactly as much power as savings, or the most there is.
fn powered(fastest: u32, runs: Vec<Run>, spare: u32, rng: &mut Rng) -> Curve {
    let mut curve = Curve { fastest, power: 0, runs };
    curve.power = match rng.below(8) {
        0 => curve.savings(),
        1 => MOST_POWER,
        _ => curve.savings() + rng.between(0, spare),
    };
    curve
}

fn deadline(board: &Board, haste: Haste, rng: &mut Rng) -> u32 {
    let fastest = board.fastest_path_ticks();
    let slowest = board.times(&board.slowest()).ends.into_iter().max().unwrap_or(1);
    let ticks = match haste {
        Haste::TooTight => fastest - 1,
        Haste::Tightest => fastest,
        Haste::Between => rng.between(fastest, slowest.min(MOST_DEADLINE).max(fastest)),
        Haste::AllSlowest => slowest,
        Haste::Unhurried => rng.between(slowest, slowest.max(MOST_DEADLINE)),
    };
    ticks.clamp(1, MOST_DEADLINE)
}
