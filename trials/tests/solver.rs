//! The second solver against all budgets of small boards, and its earliest
//! times on large ones.

mod common;
use common::*;
use trials::board::Board;
use trials::climb::climb;
use trials::make::boards::{self, board_in_time, tiny_board};
use trials::make::worth::{deadlines, short_board};
use trials::rng::Rng;
use trials::solve::{cheapest, choices, earliest, every_cheapest, loads};

fn acceptable(make: fn(&mut Rng) -> Board, rng: &mut Rng) -> Board {
    loop {
        let board = make(rng);
        if board.check_loops_and_times().is_ok() {
            return board;
        }
    }
}

/// Compares with every budget; says how many of them were cheapest.
fn check_against_all(board: &Board) -> usize {
    let all = every_cheapest(board);
    let held = earliest(&all);
    assert_eq!(held.len(), 1, "one earliest: {board:?}");
    assert_eq!(*held[0], cheapest(board), "{board:?}");
    assert_eq!(*held[0], climb(board), "{board:?}");
    all.len()
}

#[test]
fn small_boards_against_all_budgets() {
    let rng = &mut Rng::new(4);
    let (mut tried, mut tied) = (0, 0);
    while tried < 6_000 {
        let board = acceptable(tiny_board, rng);
        if choices(&board, 1_000).is_some() {
            tied += usize::from(check_against_all(&board) > 1);
            tried += 1;
        }
    }
    assert!(tied > 600, "{tied} boards had several cheapest budgets");
}

#[test]
fn greater_boards_against_all_budgets() {
    let rng = &mut Rng::new(5);
    let mut tried = 0;
    while tried < 200 {
        let board = acceptable(tiny_board, rng);
        if choices(&board, 20_000).is_some_and(|count| count > 1_000) {
            check_against_all(&board);
            tried += 1;
        }
    }
}

/// Boards of all families that happen to be small enough.
#[test]
fn boards_of_all_families_against_all_budgets() {
    let rng = &mut Rng::new(6);
    let mut tried = 0;
    while tried < 300 {
        let parts = rng.between(1, 4) as usize;
        let (shape, curves) = (rng.one_of(&boards::SHAPES[..8]), rng.one_of(&boards::CURVES));
        let board = boards::sized_board(parts, shape, curves, rng.one_of(&boards::HASTES[1..]), rng);
        if board.check_loops_and_times().is_ok() && choices(&board, 20_000).is_some() {
            check_against_all(&board);
            tried += 1;
        }
    }
}

/// Boards of up to 64 parts, those left out where the climb would be long.
#[test]
fn large_boards_against_the_climb() {
    let rng = &mut Rng::new(16);
    let (mut tried, mut between) = (0, 0);
    while tried < 300 {
        let board = acceptable(board_in_time, rng);
        if board.deadline - board.fastest_path_ticks() <= 100 {
            let budget = cheapest(&board);
            assert_eq!(climb(&board), budget, "{board:?}");
            tried += 1;
            between += usize::from(budget.delays != board.fastest() && budget.delays != board.slowest());
        }
    }
    assert!(between > 100, "{between} boards were neither all fastest nor all slowest");
}

/// Were a part to end a tick earlier, the rest would cost more or be too slow:
/// a flat part behind it takes that tick away. (`cheapest` itself checks each
/// total against the bound that its flow proves.)
fn check_earliest(board: &Board, part: usize) {
    let budget = cheapest(board);
    let mut hurried = board.clone();
    let behind = hurried.parts();
    hurried.curves.push(curve(board.deadline + 1 - budget.ends[part], 0, &[]));
    hurried.links.insert((part, behind));
    if hurried.check_loops_and_times().is_ok() {
        assert!(cheapest(&hurried).total > budget.total, "part {part} could end earlier: {board:?}");
    }
}

#[test]
fn no_part_of_a_large_board_can_end_earlier() {
    let rng = &mut Rng::new(7);
    for _ in 0..300 {
        let board = acceptable(board_in_time, rng);
        for _ in 0..4 {
            check_earliest(&board, rng.below(board.parts()));
        }
    }
}

#[test]
fn large_boards_keep_the_deadline() {
    let rng = &mut Rng::new(8);
    for _ in 0..1_000 {
        let board = acceptable(board_in_time, rng);
        let budget = cheapest(&board);
        let times = board.times(&budget.delays);
        assert_eq!((&times.starts, &times.ends), (&budget.starts, &budget.ends));
        assert!(budget.ends.iter().all(|&end| end <= board.deadline));
        assert_eq!(board.total(&budget.delays), Some(budget.total));
        assert!(budget.total <= 1_280_000_000);
    }
}

/// With no path longer than the deadline at the slowest, nobody hurries.
#[test]
fn all_slowest_where_there_is_time() {
    let rng = &mut Rng::new(9);
    for _ in 0..300 {
        let mut board = acceptable(board_in_time, rng);
        board.deadline = 1_000_000;
        assert_eq!(cheapest(&board).delays, board.slowest());
    }
}

/// What makes a flow a proof of its budget, part by part and link by link.
#[test]
fn the_flow_proves_the_budget() {
    let rng = &mut Rng::new(9);
    for _ in 0..500 {
        let board = acceptable(board_in_time, rng);
        let (budget, sheet) = (cheapest(&board), loads(&board));
        let (parts, links) = (board.parts(), board.links.len());
        assert_eq!(sheet.len(), 3 * parts + links);
        assert!(sheet.iter().all(|&load| load <= 64_000));
        for part in 0..parts {
            let linked = |is: fn(&(usize, usize), usize) -> bool| -> u32 {
                board
                    .links
                    .iter()
                    .enumerate()
                    .filter(|(_, l)| is(l, part))
                    .map(|(k, _)| sheet[parts + k])
                    .sum()
            };
            let (entry, exit) = (sheet[parts + links + part], sheet[2 * parts + links + part]);
            assert_eq!(sheet[part], entry + linked(|link, part| link.1 == part), "{board:?}");
            assert_eq!(sheet[part], exit + linked(|link, part| link.0 == part), "{board:?}");
            assert!(entry == 0 || budget.starts[part] == 0);
            assert!(exit == 0 || budget.ends[part] == board.deadline);
            let curve = &board.curves[part];
            let delay = budget.delays[part];
            let saving = |to: u32| Some(curve.power_at(to - 1)? - curve.power_at(to)?);
            assert!(saving(delay).is_none_or(|last| sheet[part] <= last));
            assert!(saving(delay + 1).is_none_or(|next| sheet[part] >= next));
        }
        for (k, &(from, to)) in board.links.iter().enumerate() {
            assert!(sheet[parts + k] == 0 || budget.ends[from] == budget.starts[to]);
        }
    }
}

/// Req 13: the least total never rises as the usable deadline grows, and each
/// further tick saves no more than the tick before it did.
#[test]
fn each_further_tick_saves_no_more() {
    let rng = &mut Rng::new(13);
    let mut bends = 0;
    for _ in 0..400 {
        let mut board = short_board(rng);
        let mut totals = Vec::new();
        for ticks in deadlines(&board) {
            board.deadline = ticks;
            totals.push(board.total(&cheapest(&board).delays).expect("a budget is on the curves"));
        }
        let savings: Vec<u32> =
            totals.windows(2).map(|two| two[0].checked_sub(two[1]).expect("the total never rises")).collect();
        assert!(savings.is_sorted_by(|tick, next| tick >= next), "{savings:?} of {board:?}");
        assert_eq!(savings.last(), Some(&0), "past the slowest a tick saves nothing");
        bends += savings.windows(2).filter(|two| two[0] > two[1]).count();
    }
    assert!(bends > 800, "the saving falls {bends} times");
}
