//! Reading and writing: every refusal of a file and of an order with its
//! place, and that what is read is written again byte for byte.

mod common;
use common::*;
use trials::board::{Board, Curve, Rule, Run};
use trials::bundle;
use trials::file::*;
use trials::make::{self, boards, damage, orders};
use trials::refusal::Refusal;
use trials::rng::Rng;

/// Design files with number and place, each faulty at its end.
const FAULTY_FILES: &[(&str, u32, u32)] = &[
    ("", 1, 0),
    ("01", 1, 1),
    ("80", 1, 1),
    ("80 80", 1, 2),
    ("80 80 80", 1, 3),
    ("80 80 80 80", 2, 0),
    ("80 80 80 80 01", 2, 0),
    ("80 80 80 00", 2, 0),
    ("80 80 80 01", 3, 0),
    ("80 80 00", 2, 0),
    ("81 00", 2, 0),
    ("00", 3, 0),
    ("02", 3, 0),
    ("80 01", 3, 0),
    // Deadline, part count.
    ("01 00", 4, 1),
    ("01 80 20", 4, 1),
    ("01 FF 1F", 1, 3),
    ("01 0A 00", 4, 2),
    ("01 0A 41", 4, 2),
    // Fastest, power, run count.
    ("01 0A 01 00", 4, 3),
    ("01 0A 01 80 08", 4, 3),
    ("01 0A 01 FF 07", 1, 5),
    ("01 0A 01 01 81 DA C4 09", 4, 4),
    ("01 0A 01 01 80 DA C4 09", 1, 8),
    ("01 0A 01 01 80 DA C4 09 05", 4, 8),
    // Length, saving; 4 comes before 5, and 5 before 6.
    ("01 0A 01 01 64 01 00", 4, 6),
    ("01 0A 01 01 64 01 80 02", 4, 6),
    ("01 0A 01 01 64 01 01 00", 4, 7),
    ("01 0A 01 01 64 01 01 E9 07", 4, 7),
    ("01 0A 01 01 64 02 01 05 01 05", 5, 9),
    ("01 0A 01 01 64 02 01 05 01 06", 5, 9),
    ("01 0A 01 01 64 02 01 05 01 E9 07", 4, 9),
    ("01 0A 01 01 00 02 01 05 01 05", 5, 9),
    ("01 0A 01 01 04 01 01 05", 6, 4),
    ("01 0A 01 01 04 02 01 05", 1, 8),
    // Links on two parts; a fault in `to` wins over a `from` that is too low.
    ("01 0A 02 01 00 00 01 00 00 81 02", 4, 9),
    ("01 0A 02 01 00 00 01 00 00 01 02", 4, 10),
    ("01 0A 02 01 00 00 01 00 00 01 00 02", 4, 11),
    ("01 0A 02 01 00 00 01 00 00 01 00 00", 7, 10),
    ("01 0A 02 01 00 00 01 00 00 02 00 01 00 01", 7, 12),
    ("01 0A 02 01 00 00 01 00 00 02 01 00 00 01", 7, 12),
    ("01 0A 02 01 00 00 01 00 00 02 01 00 00", 1, 13),
    ("01 0A 02 01 00 00 01 00 00 02 01 00 00 02", 4, 13),
    ("01 0A 02 01 00 00 01 00 00 02 01 00 00 80 00", 2, 13),
    ("01 0A 02 01 00 00 01 00 00 01 00 01 07", 8, 12),
    ("01 0A 01 01 00 00 00 FF", 8, 7),
];

const FAULTY_ORDERS: &[(&str, u32, u32)] = &[
    ("", 1, 0),
    ("00", 12, 0),
    ("05", 12, 0),
    ("80 01", 12, 0),
    ("81 00", 2, 0),
    ("81 80 80", 1, 3),
    ("81 80 80 80", 2, 0),
    ("81 80 80 01", 12, 0),
    ("81", 1, 1),
    ("01", 1, 1),
    ("01 00", 4, 1),
    ("01 80 20", 4, 1),
    ("02 40", 4, 1),
    ("02 00 40", 4, 2),
    ("03 3F", 1, 2),
    ("03 40 00", 4, 1),
    ("04 40", 4, 1),
    ("01 80 80 80 01", 4, 1),
    ("02 00 80 80 80 01", 4, 2),
    ("04 80 80 80 01", 4, 1),
    ("04 00 01 81 DA C4 09", 4, 3),
    ("04 00 01 80 DA C4 09", 1, 7),
    ("04 00 00", 4, 2),
    ("04 00 01 05 03 01 05 01 05", 5, 8),
    ("04 00 01 05 01 02 03", 6, 3),
];

fn refusal_of<T>(read: Result<T, Refusal>, hex: &str) -> (u32, u32) {
    match read {
        Ok(_) => panic!("{hex} was read"),
        Err(refusal) => (refusal.number, refusal.place as u32),
    }
}

#[test]
fn faulty_files() {
    for &(hex, number, place) in FAULTY_FILES {
        assert_eq!(refusal_of(read_design(Rule::A, &bytes(hex)), hex), (number, place), "{hex}");
    }
}

#[test]
fn faulty_orders() {
    for &(hex, number, place) in FAULTY_ORDERS {
        assert_eq!(refusal_of(read_order(&bytes(hex)), hex), (number, place), "{hex}");
    }
}

#[test]
fn orders_take_their_bytes_and_no_more() {
    assert_eq!(read_order(&bytes("01 09 FF FF")), Ok((Order::Deadline(9), 2)));
    assert_eq!(read_order(&bytes("02 03 01 80")), Ok((Order::Add(3, 1), 3)));
    assert_eq!(read_order(&bytes("03 05 05")), Ok((Order::Remove(5, 5), 3)));
    let curve = curve(1, 6, &[(2, 3)]);
    assert_eq!(read_order(&bytes("04 00 01 06 01 02 03 00")), Ok((Order::Replace(0, curve), 7)));
}

#[test]
fn boards_and_orders_are_read_back() {
    let rng = &mut Rng::new(1);
    for _ in 0..2_000 {
        let board = boards::board(rng);
        assert_eq!(read_design(Rule::A, &write_design(&board)), Ok(board.clone()));
        if board.check_loops_and_times().is_ok() {
            let order = orders::order(&board, rng);
            let bytes = write_order(&order);
            assert_eq!(read_order(&bytes), Ok((order, bytes.len())));
        }
    }
}

/// There is one file for each board: what is read is written as it was. A
/// refusal's place lies within the input, or at its end where it is cut off.
fn check_file(file: &[u8]) {
    match read_design(Rule::A, file) {
        Ok(board) => {
            assert!(board.is_well_formed());
            assert_eq!(write_design(&board), file);
        }
        Err(refusal) => {
            let place = refusal.place as usize;
            assert!((1..=8).contains(&refusal.number));
            assert!(if refusal.number == 1 { place == file.len() } else { place < file.len() });
            assert!(refusal.path.is_empty());
        }
    }
}

#[test]
fn every_byte_of_k_changed() {
    damage::every_byte_changed(&bytes(K_HEX)).for_each(|file| check_file(&file));
    damage::sweep(&bytes(K_HEX)).iter().for_each(|file| check_file(file));
}

#[test]
fn made_files() {
    make::files(20_000, &mut Rng::new(2)).iter().for_each(|file| check_file(file));
}

/// A file cut anywhere ends within a number: each number but the last group
/// of the last one is still to come.
#[test]
fn every_cut_is_refusal_1() {
    let rng = &mut Rng::new(3);
    for _ in 0..50 {
        let file = write_design(&boards::board(rng));
        for length in 0..file.len() {
            assert_eq!(refusal_of(read_design(Rule::A, &file[..length]), "a cut file"), (1, length as u32));
        }
    }
}

/// What is read of a small file whose number at `place` stands as `form`,
/// with or without the numbers after it.
fn read_with(place: usize, form: &[u8], rest: bool) -> Result<Board, Refusal> {
    let numbers = design_numbers(&boards::with_every_field());
    let after = if rest { bytes_of(&numbers[place + 1..]) } else { Vec::new() };
    read_design(Rule::A, &[&bytes_of(&numbers[..place])[..], form, &after].concat())
}

/// The places of the powers among the numbers of that file, each a byte long.
const POWERS: [usize; 2] = [4, 9];

/// Refusal 4 in every field that keeps its range, 3 for the version; a power
/// is read up to 20,000,000.
#[test]
fn four_groups_in_every_field() {
    for place in 0..design_numbers(&boards::with_every_field()).len() {
        for number in [2_097_151, 2_097_152, 20_000_000, 20_000_001, 268_435_455] {
            let read = read_with(place, &number_bytes(number), true);
            if POWERS.contains(&place) && number <= 20_000_000 {
                let board = read.expect("a power in its range");
                assert!(board.curves.iter().any(|curve| curve.power == number));
            } else {
                let refused = if place == 0 { 3 } else { 4 };
                assert_eq!(refusal_of(read, "a number"), (refused, place as u32), "{number} at {place}");
            }
        }
    }
}

/// 1 while fewer than four groups are read, and 2 from the fourth on, whether
/// or not the input ends there.
#[test]
fn four_groups_cut_after_every_byte() {
    for place in 0..design_numbers(&boards::with_every_field()).len() {
        for hex in ["80 80 80 01", "FF FF FF 7F", "80 80 80 80", "80 80 80 00"] {
            let form = bytes(hex);
            for length in 1..4 {
                let cut = refusal_of(read_with(place, &form[..length], false), hex);
                assert_eq!(cut, (1, (place + length) as u32), "{hex} at {place}");
            }
        }
        for hex in ["80 80 80 80", "80 80 80 00", "80 80 80 80 01"] {
            for rest in [false, true] {
                let refused = refusal_of(read_with(place, &bytes(hex), rest), hex);
                assert_eq!(refused, (2, place as u32), "{hex} at {place}");
            }
        }
    }
}

#[test]
fn the_longest_file() {
    let runs = [Run { length: 255, saving: 1_000 }; 4];
    let savings = [1_000, 999, 998, 997];
    let runs = runs.iter().zip(savings).map(|(run, saving)| Run { saving, ..*run }).collect();
    let curve = Curve { fastest: 1_023, power: 20_000_000, runs };
    let all = (0..64).flat_map(|from| (0..64).map(move |to| (from, to)));
    let links = all.filter(|(from, to)| from < to).take(256).collect();
    let board = Board { rule: Rule::A, deadline: 4_095, curves: vec![curve; 64], links };
    assert!(board.is_well_formed());
    assert_eq!(write_design(&board).len(), 1_990);
    assert_eq!(read_design(Rule::A, &write_design(&board)), Ok(board));
}

#[test]
fn bundles_are_unpacked_as_packed() {
    let records = vec![vec![], vec![1], vec![2; 300]];
    let packed = bundle::pack(&records);
    assert_eq!(bundle::unpack(&packed).unwrap(), records);
    assert_eq!(bundle::unpack(&packed[..packed.len() - 1]), None);
    assert_eq!(bundle::unpack(&[0, 0, 0]), None);
}
