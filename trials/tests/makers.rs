//! That the makers make what they say: each family, every size, and every
//! refusal often enough to be tried.

use std::collections::{BTreeMap, BTreeSet};
use trials::board::Rule;
use trials::calls::{script, Call};
use trials::file::{read_design, read_order};
use trials::make::{self, advice, boards::*};
use trials::player::played;
use trials::rng::Rng;

/// How often each number was met; 0 is acceptance.
type Counts = BTreeMap<u32, usize>;

fn assert_met(counts: &Counts, numbers: &[u32], least: usize) {
    for number in numbers {
        let met = counts.get(number).copied().unwrap_or(0);
        assert!(met >= least, "{number} was met {met} times: {counts:?}");
    }
}

#[test]
fn every_family_is_well_formed() {
    let rng = &mut Rng::new(10);
    for shape in SHAPES {
        for curves in CURVES {
            for haste in HASTES {
                for parts in [1, 2, 3, 17, 63, 64] {
                    let board = sized_board(parts, shape, curves, haste, rng);
                    assert!(board.is_well_formed(), "{shape:?} {curves:?} {haste:?} {board:?}");
                    let looped = board.lowest_part_on_a_loop().is_some();
                    assert_eq!(looped, shape == Shape::Looped && parts > 1);
                }
            }
        }
    }
}

#[test]
fn every_family_has_boards_in_time_and_too_slow() {
    let rng = &mut Rng::new(11);
    for shape in &SHAPES[..8] {
        for curves in CURVES {
            let in_time = |haste, rng: &mut Rng| {
                (0..40)
                    .filter(|_| board_of(*shape, curves, haste, rng).check_loops_and_times().is_ok())
                    .count()
            };
            assert!(in_time(Haste::Tightest, rng) >= 20, "{shape:?} {curves:?}");
            assert!(in_time(Haste::Between, rng) >= 20, "{shape:?} {curves:?}");
            assert!(in_time(Haste::TooTight, rng) < 40, "{shape:?} {curves:?}");
        }
    }
}

#[test]
fn boards_of_every_size_with_links_both_ways() {
    let rng = &mut Rng::new(12);
    let made: Vec<_> = (0..3_000).map(|_| board(rng)).collect();
    let sizes: BTreeSet<usize> = made.iter().map(|board| board.parts()).collect();
    assert_eq!(sizes, (1..=64).collect());
    assert!(made.iter().any(|board| board.links.len() == 256));
    assert!(made.iter().any(|board| board.links.iter().any(|(from, to)| from > to)));
    let mut counts = Counts::new();
    for board in &made {
        *counts
            .entry(board.check_loops_and_times().err().map_or(0, |refusal| refusal.number))
            .or_default() += 1;
    }
    assert_met(&counts, &[9, 10], 60);
    assert_met(&counts, &[0], 2_100);
}

#[test]
fn files_meet_every_refusal_of_reading() {
    let mut counts = Counts::new();
    for file in make::files(10_000, &mut Rng::new(13)) {
        *counts.entry(read_design(Rule::A, &file).err().map_or(0, |refusal| refusal.number)).or_default() += 1;
    }
    assert_met(&counts, &[0, 1, 2, 3, 4, 5, 6, 7, 8], 100);
}

#[test]
fn orders_meet_every_refusal_of_reading() {
    let (mut counts, mut kinds) = (Counts::new(), Counts::new());
    for bytes in make::orders(20_000, &mut Rng::new(14)) {
        match read_order(&bytes) {
            Ok((order, _)) => *kinds.entry(order.kind()).or_default() += 1,
            Err(refusal) => *counts.entry(refusal.number).or_default() += 1,
        }
    }
    assert_met(&counts, &[1, 2, 4, 12], 200);
    assert_met(&counts, &[5, 6], 20);
    assert_met(&kinds, &[1, 2, 3, 4], 1_000);
}

/// How often the answers to a call have each number, read from the printed
/// lines, as a comparison would see them.
fn answers(text: &str, call: &str) -> Counts {
    let mut counts = Counts::new();
    for line in text.lines() {
        let words: Vec<&str> = line.split(' ').collect();
        if words[0] == call && words[1] == "no" {
            *counts.entry(words[2].parse().unwrap()).or_default() += 1;
        }
    }
    counts
}

#[test]
fn sessions_meet_every_refusal_of_orders() {
    let text = played(&script(&make::sessions(400, &mut Rng::new(15))));
    let counts = answers(&text, "order");
    assert_met(&counts, &[0], 2_000);
    assert_met(&counts, &[7, 9, 10, 11, 13, 14, 15, 17, 18], 10);
    assert_met(&counts, &[2, 4, 12], 5);
    assert_met(&answers(&text, "load"), &[0, 1, 9, 10, 22], 5);
    assert!(text.contains("\nrule A\n") && text.contains("\nrule B\n"));
    assert!(!text.contains("stopped"));
}

/// Loads that are refused while a board is held, on a tally that is not 0.
#[test]
fn loads_on_a_held_board() {
    let text = played(&script(&make::loads(2_000, &mut Rng::new(17))));
    let lines: Vec<&str> = text.lines().collect();
    let kept = |three: &&[&str]| {
        three[0].starts_with("load no ") && !three[0].starts_with("load no 0") && three[2] == "held 1"
    };
    let kept: Vec<_> = lines.windows(3).filter(kept).collect();
    assert!(kept.len() > 50, "{} refused loads kept a board", kept.len());
    assert!(kept.iter().any(|three| three[1] != "tally 0 0"));
    assert!(text.contains("\nheld 0\n"));
}

/// In steps what is held is asked for after every call.
#[test]
fn steps_show_every_state() {
    let calls = make::steps(20, &mut Rng::new(18));
    assert!(calls.chunks(2).all(|two| two[0] != Call::State && two[1] == Call::State));
}

#[test]
fn questions_of_every_kind() {
    let text = played(&script(&make::questions(400, &mut Rng::new(19))));
    assert_met(&answers(&text, "power"), &[0, 11, 17, 19], 100);
    for call in ["up", "down", "sets"] {
        assert_met(&answers(&text, call), &[0, 11, 17], 50);
    }
    assert_met(&answers(&text, "write"), &[0, 11, 16], 50);
    assert_met(&answers(&text, "label"), &[0, 20], 200);
}

/// Right advice has loads, all other kinds mostly differ from it, what is sent
/// along paths conserves, and a board that is refused is advised too.
#[test]
fn advice_of_every_kind() {
    const KINDS: usize = advice::KINDS.len();
    let rng = &mut Rng::new(12);
    let (mut right, mut other) = ([0; KINDS], [0; KINDS]);
    for index in 0..200 * KINDS {
        let board = board_in_time(rng);
        let kind = advice::KINDS[index % KINDS];
        let sound = advice::advice(advice::Kind::Right, &board, rng);
        let given = advice::advice(kind, &board, rng);
        assert!(given.len() <= 4 * advice::LOADS);
        if [advice::Kind::Right, advice::Kind::Huge, advice::Kind::Cyclic].contains(&kind) {
            assert!(conserves(&given, &board), "{kind:?}");
        }
        right[index % KINDS] += usize::from(given == sound);
        other[index % KINDS] += usize::from(given != sound);
    }
    assert_eq!(right[0], 200);
    assert!(other[1] > 50 && right[1] > 20, "stale advice is often still right: {right:?} {other:?}");
    assert_eq!([right[2], right[4]], [0, 0], "{right:?}");
    assert!(other[3] > 150 && other[5] > 100 && other[6] > 150, "{other:?}");
    let records = make::advised(400, rng);
    assert_eq!(records.len(), 800);
    let refused = |file: &[u8]| read_design(Rule::A, file).unwrap().check_loops_and_times().err();
    assert!(records.chunks(2).any(|pair| refused(&pair[0]).is_some_and(|refusal| refusal.number == 9)));
}

/// As much comes to each part as its load, and as much goes on, at 2^32 anew.
fn conserves(advice: &[u8], board: &trials::board::Board) -> bool {
    let load = |place: usize| u32::from_le_bytes(advice[4 * place..4 * place + 4].try_into().unwrap());
    let (parts, links) = (board.parts(), board.links.len());
    (0..parts).all(|part| {
        let sum = |end: fn(&(usize, usize)) -> usize, own: usize| {
            let on = board.links.iter().enumerate().filter(|(_, link)| end(link) == part);
            on.fold(load(own), |sum, (k, _)| sum.wrapping_add(load(parts + k)))
        };
        sum(|link| link.1, parts + links + part) == load(part)
            && sum(|link| link.0, parts + links + parts + part) == load(part)
    })
}
