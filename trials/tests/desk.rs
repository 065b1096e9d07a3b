//! Orders and their refusals in their order, the tally, writing, questions
//! and labels.

mod common;
use common::*;
use trials::board::{Board, Curve, Rule, RULE_A};
use trials::desk::{label, Desk, Tally};
use trials::file::write_design;
use trials::refusal::Refusal;

/// 64 flat parts, the first 256 links upward.
fn full_board() -> Board {
    let all = (0..64).flat_map(|from| (from + 1..64).map(move |to| (from, to)));
    let flat = Curve { fastest: 1, power: 0, runs: vec![] };
    Board { rule: Rule::A, deadline: 64, curves: vec![flat; 64], links: all.take(256).collect() }
}

#[test]
fn nothing_held() {
    let mut desk = Desk::default();
    let mut tally = Tally { taken: 70_000, refused: 1 };
    let nothing = Refusal::at(11, 0);
    let answer = desk.order(&bytes("01 09"), &mut tally);
    assert_eq!((answer.took, answer.verdict), (2, Err(nothing.clone())));
    let unread = desk.order(&bytes("01 00"), &mut tally);
    assert_eq!((unread.took, unread.verdict), (0, Err(Refusal::at(4, 1))));
    assert_eq!(desk.write(&mut []), Err(nothing.clone()));
    assert_eq!(desk.upstream(99), Err(nothing.clone()));
    assert_eq!(desk.power(0, 0), Err(nothing));
    assert_eq!(tally, Tally { taken: 70_000, refused: 1 });
}

#[test]
fn refusals_of_a_link_to_add() {
    let mut k = Session::with(&board_k());
    assert_eq!(k.refused("02 05 04"), (17, 5, vec![]));
    assert_eq!(k.refused("02 00 3F"), (17, 63, vec![]));
    assert_eq!(k.refused("02 04 04"), (17, 4, vec![]));
    assert_eq!(k.refused("02 01 01"), (7, 0, vec![]));
    assert_eq!(k.refused("02 00 01"), (13, 0, vec![]));
    assert_eq!(k.refused("02 02 00"), (9, 0, vec![]));
    assert_eq!(k.refused("02 02 01"), (9, 1, vec![]));
    assert_eq!(k.tally, Tally { taken: 0, refused: 7 });
    assert_eq!((k.delays(), k.total()), (vec![4, 3, 3, 6], 208));
}

#[test]
fn refusals_of_a_full_board() {
    let mut full = Session::with(&full_board());
    assert_eq!(full.refused("02 00 00"), (7, 0, vec![]));
    assert_eq!(full.refused("02 00 01"), (13, 0, vec![]));
    // 15 comes before the loop that the link would close.
    assert_eq!(full.refused("02 01 00"), (15, 0, vec![]));
    assert_eq!(full.refused("02 3E 3F"), (15, 0, vec![]));
    assert!(full.order("03 00 01").verdict.is_ok());
    assert!(full.order("02 3E 3F").verdict.is_ok());
    assert_eq!(full.tally, Tally { taken: 2, refused: 4 });
}

#[test]
fn refusals_of_a_link_to_remove() {
    let mut k = Session::with(&board_k());
    assert_eq!(k.refused("03 01 00"), (14, 0, vec![]));
    assert_eq!(k.refused("03 01 01"), (14, 0, vec![]));
    assert_eq!(k.refused("03 07 09"), (17, 7, vec![]));
    assert_eq!(k.tally, Tally { taken: 0, refused: 3 });
}

#[test]
fn a_new_curve() {
    let mut k = Session::with(&board_k());
    assert_eq!(k.refused("04 04 01 00 00"), (17, 4, vec![]));
    // Part 3 at 9 ticks, after part 0 at 2: 11.
    assert_eq!(k.refused("04 03 09 00 00"), (10, 11, vec![0, 3]));
    assert!(k.order("04 03 08 00 00").verdict.is_ok());
    assert_eq!((k.delays(), k.total()), (vec![2, 5, 3, 8], 100 + 66 + 26));
}

#[test]
fn a_tally_that_is_full() {
    let mut k = Session::with(&board_k());
    for full in [(65_535, 0), (0, 65_535), (60_000, 5_535), (u32::MAX, u32::MAX)] {
        k.tally = Tally { taken: full.0, refused: full.1 };
        let before = k.tally;
        assert_eq!(k.refused("01 0B"), (18, 0, vec![]));
        assert_eq!(k.refused("02 05 04"), (18, 0, vec![]));
        assert_eq!(k.refused("01 00"), (4, 1, vec![]));
        assert_eq!(k.tally, before);
    }
    k.tally = Tally { taken: 0, refused: 65_534 };
    assert!(k.order("01 0B").verdict.is_ok());
    assert_eq!(k.tally, Tally { taken: 1, refused: 65_534 });
}

#[test]
fn a_load_sets_the_tally_only_when_accepted() {
    let mut k = Session::with(&board_k());
    assert!(k.order("01 0B").verdict.is_ok());
    let desk = k.desk.clone();
    assert_eq!(k.desk.load(RULE_A, &[], &mut k.tally), Err(Refusal::at(1, 0)));
    assert_eq!((&k.desk, k.tally), (&desk, Tally { taken: 1, refused: 0 }));
    assert_eq!(k.desk.load(RULE_A, &bytes(K_HEX), &mut k.tally), Ok(()));
    assert_eq!(k.tally, Tally::default());
    assert_eq!(k.desk.held().unwrap().board.deadline, 10);
}

#[test]
fn a_write_leaves_the_rest_of_the_buffer() {
    let k = Session::with(&board_k());
    let file = bytes(K_HEX);
    let mut short = vec![7; file.len() - 1];
    assert_eq!(k.desk.write(&mut short), Err(Refusal::at(16, file.len())));
    assert!(short.iter().all(|&byte| byte == 7));
    let mut long = vec![7; file.len() + 3];
    assert_eq!(k.desk.write(&mut long), Ok(file.len()));
    assert_eq!(long, [file, vec![7; 3]].concat());
}

#[test]
fn questions_refuse_any_number_that_is_no_part() {
    let k = Session::with(&board_k()).desk;
    for part in [4, 63, 64, 65, 1 << 32, u64::MAX] {
        let refusal = Refusal::asked(17, part);
        assert_eq!(k.upstream(part), Err(refusal.clone()));
        assert_eq!(k.downstream(part), Err(refusal.clone()));
        assert_eq!(k.parents_and_children(part), Err(refusal.clone()));
        assert_eq!(k.power(part, 0), Err(refusal));
    }
    for delay in [0, 3, 7, 1 << 32, (1 << 32) + 4, u64::MAX] {
        assert_eq!(k.power(3, delay), Err(Refusal::asked(19, delay)));
    }
}

/// Two parents share a child, one of them has a child of its own; a part that
/// is not critical stays out.
#[test]
fn parents_and_children_by_turns() {
    let flat = |delay| curve(delay, 0, &[]);
    let curves = vec![flat(2), flat(2), flat(1), flat(1), flat(1)];
    let board = board(9, curves, &[(0, 3), (1, 3), (1, 4), (2, 4)]);
    let desk = Session::with(&board).desk;
    let sets = |part| {
        let (parents, children) = desk.parents_and_children(part).unwrap();
        (parents.set, children.set)
    };
    assert_eq!(sets(0), (0b00011, 0b11000));
    assert_eq!(sets(1), (0b00011, 0b11000));
    assert_eq!(sets(2), (0b00100, 0));
    assert_eq!(sets(3), (0b01000, 0));
}

#[test]
fn labels() {
    let sheet = b"AMP\n\n!~\nwith space\nseventeen-letters\nsixteen--letters\ncr\r\nlast";
    let good = [(0, "AMP"), (2, "!~"), (5, "sixteen--letters"), (7, "last")];
    for (line, name) in good {
        assert_eq!(label(sheet, line), Ok(name.as_bytes()));
    }
    for line in [1, 3, 4, 6, 8, 64, 1 << 32, u64::MAX] {
        assert_eq!(label(sheet, line), Err(Refusal::at(20, 0)), "line {line}");
    }
    assert_eq!(label(b"", 0), Err(Refusal::at(20, 0)));
    assert_eq!(label(b"A\n", 1), Err(Refusal::at(20, 0)));
    assert_eq!(label(b"\x7f", 0), Err(Refusal::at(20, 0)));
}

#[test]
fn the_lowest_part_on_a_loop_is_itself_on_it() {
    let flat = Curve { fastest: 1, power: 0, runs: vec![] };
    let links = [(0, 3), (3, 4), (4, 3), (4, 1), (5, 2), (2, 5)];
    let board = Board { rule: Rule::A, deadline: 9, curves: vec![flat; 6], links: links.into() };
    assert_eq!(board.lowest_part_on_a_loop(), Some(2));
}

#[test]
fn the_slow_path_goes_by_the_lowest_numbers() {
    let curves = [3, 3, 2, 2, 1].map(|delay| curve(delay, 0, &[])).to_vec();
    let board = board(4, curves, &[(0, 3), (1, 2), (1, 3), (4, 2)]);
    assert_eq!(board.check_loops_and_times().unwrap_err().place, 5);
    assert_eq!(board.slow_path(), [1, 2]);
}

#[test]
fn usable_deadlines() {
    let usable = |rule, deadline| Board { rule, ..one_part(deadline, curve(1, 0, &[])) }.usable();
    for (deadline, under_b) in [(1, 1), (63, 63), (64, 63), (127, 126), (128, 126), (4_095, 4_032)] {
        assert_eq!((usable(Rule::A, deadline), usable(Rule::B, deadline)), (deadline, under_b));
    }
}

/// 22 comes before all reading; a refused load and an order keep the held rule.
#[test]
fn rules() {
    let mut k = Session::with(&board_k());
    let rule = |k: &Session| k.desk.held().unwrap().board.rule;
    for number in [2, 3, 1 << 32, u64::MAX] {
        assert_eq!(k.desk.load(number, &[], &mut k.tally), Err(Refusal::at(22, 0)));
    }
    assert_eq!(rule(&k), Rule::A);
    assert_eq!(k.desk.load(1, &bytes(K_HEX), &mut k.tally), Ok(()));
    assert_eq!(k.desk.load(0, &[], &mut k.tally), Err(Refusal::at(1, 0)));
    assert_eq!(k.desk.order(&bytes("01 80 01"), &mut k.tally).verdict, Ok(()));
    assert_eq!((rule(&k), k.desk.held().unwrap().board.usable()), (Rule::B, 126));
    let tight = write_design(&one_part(64, curve(64, 0, &[])));
    assert_eq!(k.desk.load(1, &tight, &mut k.tally).unwrap_err().number, 10);
    assert_eq!(k.desk.load(0, &tight, &mut k.tally), Ok(()));
    assert_eq!(rule(&k), Rule::A);
}
