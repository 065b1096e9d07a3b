//! Cases to try, by chance but the same for the same seed. All but those with
//! advice are scripts for the support program `calls`.

pub mod advice;
pub mod boards;
pub mod damage;
pub mod orders;
pub mod questions;
pub mod sessions;
pub mod tour;
pub mod worth;

use crate::calls::Call;
use crate::file::{write_design, write_order};
use crate::rng::Rng;

pub use questions::questions;
pub use sessions::{sessions, steps};
pub use tour::tour;
pub use worth::worth;

/// A small file at every edge of its fields, then good design files, each
/// followed by damaged ones made from it: a short file in every way of
/// `damage::sweep`, a long one in some ways.
pub fn files(count: usize, rng: &mut Rng) -> Vec<Vec<u8>> {
    let mut files = damage::edges(&boards::with_every_field());
    while files.len() < count {
        let board = boards::board(rng);
        let file = write_design(&board);
        if file.len() <= 48 {
            files.extend(damage::sweep(&file));
        }
        for _ in 0..16 {
            files.push(damage::design(&board, rng));
        }
        files.push(file);
    }
    files.truncate(count);
    files
}

/// Single orders, half of them damaged, some with bytes behind.
pub fn orders(count: usize, rng: &mut Rng) -> Vec<Vec<u8>> {
    let mut orders = Vec::new();
    while orders.len() < count {
        let board = boards::board_in_time(rng);
        for _ in 0..16 {
            let order = orders::order(&board, rng);
            let mut bytes = if rng.once_in(2) { damage::order(&order, rng) } else { write_order(&order) };
            if rng.once_in(4) {
                bytes.extend(write_order(&orders::order(&board, rng)));
            }
            orders.push(bytes);
        }
    }
    orders.truncate(count);
    orders
}

/// Design files of boards of all families, most of them acceptable.
pub fn boards(count: usize, rng: &mut Rng) -> Vec<Vec<u8>> {
    (0..count).map(|_| write_design(&boards::board(rng))).collect()
}

/// Damaged and good files, each loaded.
pub fn loads(count: usize, rng: &mut Rng) -> Vec<Call> {
    each_loaded(files(count, rng), rng)
}

/// Boards of every shape and size, each loaded.
pub fn designs(count: usize, rng: &mut Rng) -> Vec<Call> {
    each_loaded(boards(count, rng), rng)
}

/// The number of a rule; one in sixteen names none.
pub fn rule(rng: &mut Rng) -> u64 {
    if rng.once_in(16) {
        return rng.one_of(&[2, 3, 255, 256, (1 << 32) - 1, 1 << 32, (1 << 32) + 1, u64::MAX]);
    }
    rng.below(2) as u64
}

/// Half of them on an empty desk, half on what the files before them left, one
/// in four under another rule than the one before; all that is then held is
/// asked for, and now and then a tally that is not 0.
fn each_loaded(files: Vec<Vec<u8>>, rng: &mut Rng) -> Vec<Call> {
    let mut calls = Vec::new();
    for file in files {
        if rng.once_in(2) {
            calls.push(Call::Drop);
        }
        if rng.once_in(8) {
            calls.push(Call::Tally(sessions::count(rng), sessions::count(rng)));
        }
        if rng.once_in(4) {
            calls.push(Call::Rule(rule(rng)));
        }
        calls.extend([Call::Load(file), Call::Counts, Call::State]);
    }
    calls
}

/// Design files of boards of all families, each with advice: the kinds of
/// advice come by turns.
pub fn advised(count: usize, rng: &mut Rng) -> Vec<Vec<u8>> {
    let mut records = Vec::new();
    for index in 0..count {
        let board = boards::board(rng);
        let kind = advice::KINDS[index % advice::KINDS.len()];
        records.extend([write_design(&board), advice::advice(kind, &board, rng)]);
    }
    records
}
