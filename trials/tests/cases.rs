//! The paper's twelve cases, those that are run only, and its shortcuts.

mod common;
use common::*;
use trials::board::{Board, Rule, RULE_A};
use trials::desk::{Desk, Tally};
use trials::file::{read_design, write_design};
use trials::refusal::Refusal;
use trials::solve::{earliest, every_cheapest};

fn refused_load(board: &Board) -> (u32, u64, Vec<usize>) {
    let Refusal { number, place, path } =
        Desk::default().load(RULE_A, &write_design(board), &mut Tally::default()).expect_err("the load is refused");
    (number, place, path)
}

#[test]
fn case_1_powers_of_part_0() {
    let k = Session::with(&board_k());
    let powers: Vec<u32> = (2..=5).map(|delay| k.desk.power(0, delay).unwrap()).collect();
    assert_eq!(powers, [100, 80, 60, 55]);
    for delay in [1, 6] {
        assert_eq!(k.desk.power(0, delay), Err(Refusal::at(19, delay as usize)));
    }
}

#[test]
fn case_2_board_k() {
    let k = Session::with(&board_k());
    assert_eq!((k.delays(), k.ends(), k.total()), (vec![4, 3, 3, 6], vec![4, 7, 10, 10], 208));
    assert_eq!(board_k().total(&[4, 5, 1, 6]), Some(208));
    assert_eq!(board_k().times(&[4, 5, 1, 6]).ends, [4, 9, 10, 10]);
    assert_eq!(write_design(&board_k()), bytes(K_HEX));
    assert_eq!(read_design(Rule::A, &bytes(K_HEX)), Ok(board_k()));
}

#[test]
fn cases_3_and_4_board_d() {
    let d = Session::with(&board_d(5));
    assert_eq!((d.delays(), d.total()), (vec![1, 2, 2], 24));
    let tie = Session::with(&board_d(6));
    assert_eq!((tie.delays(), tie.total()), (vec![1, 2, 2], 24));
    assert_eq!(board_d(6).total(&[2, 1, 1]), Some(24));
}

#[test]
fn cases_5_to_7_one_part() {
    let least = Session::with(&one_part(1, curve(1, 0, &[])));
    assert_eq!((least.delays(), least.total()), (vec![1], 0));
    let long = curve(5, 255, &[(255, 1)]);
    let loose = Session::with(&one_part(4_095, long.clone()));
    assert_eq!((loose.delays(), loose.total()), (vec![260], 0));
    let tight = Session::with(&one_part(5, long.clone()));
    assert_eq!((tight.delays(), tight.total()), (vec![5], 255));
    assert_eq!(refused_load(&one_part(4, long)), (10, 5, vec![0]));
}

#[test]
fn cases_8_to_10_orders_on_k() {
    let mut k = Session::with(&board_k());
    assert!(k.order("02 03 01").verdict.is_ok());
    assert_eq!((k.delays(), k.total()), (vec![2, 3, 1, 4], 280));
    assert_eq!(k.refused("01 09"), (10, 10, vec![0, 3, 1, 2]));
    assert_eq!((k.delays(), k.total()), (vec![2, 3, 1, 4], 280));
    assert!(k.order("03 03 01").verdict.is_ok());
    assert!(k.order("01 09").verdict.is_ok());
    assert_eq!((k.delays(), k.total()), (vec![4, 3, 2, 5], 222));
    assert_eq!(k.tally, Tally { taken: 3, refused: 1 });
}

#[test]
fn case_11_numbers() {
    // A deadline of 128, then one that is not in shortest form.
    assert!(Session::with(&board_k()).order("01 80 01").verdict.is_ok());
    assert_eq!(Session::with(&board_k()).refused("01 80 00"), (2, 1, vec![]));
    assert_eq!(trials::file::number_bytes(128), [0x80, 0x01]);
}

#[test]
fn case_12_sets_of_k() {
    let k = Session::with(&board_k()).desk;
    let up = k.upstream(2).unwrap();
    assert_eq!((up.set, up.count), (7, 3));
    let down = k.downstream(0).unwrap();
    assert_eq!((down.set, down.count), (15, 4));
    let (parents, children) = k.parents_and_children(0).unwrap();
    assert_eq!((parents.set, parents.count, children.set, children.count), (1, 1, 10, 2));
}

#[test]
fn run_only() {
    let mut turning = board_d(5);
    turning.links = [(0, 1), (1, 0)].into();
    assert_eq!(refused_load(&turning), (9, 0, vec![]));
    assert_eq!(refused_load(&one_part(9, curve(1, 9, &[(1, 2), (1, 2)]))), (5, 9, vec![]));
}

#[test]
fn shortcuts_that_cost() {
    assert_eq!(board_d(5).total(&[2, 1, 1]), Some(25));
    let three = every_cheapest(&board_k());
    assert_eq!(three.len(), 3);
    let held: Vec<_> = earliest(&three).into_iter().map(|budget| budget.delays.clone()).collect();
    assert_eq!(held, [[4, 3, 3, 6]]);
}
