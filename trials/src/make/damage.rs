//! Damaged design files and orders.

use crate::board::Board;
use crate::file::{bytes_of, design_numbers, number_bytes, order_numbers, Order};
use crate::rng::Rng;

/// Numbers at or next to the end of some field's range or form.
const EDGES: [u32; 31] = [
    0, 1, 2, 3, 4, 5, 6, 62, 63, 64, 65, 127, 128, 255, 256, 257, 1_000, 1_001, 1_023, 1_024, 4_095, 4_096,
    16_383, 16_384, 2_000_000, 2_000_001, 2_097_151, 2_097_152, 20_000_000, 20_000_001, 268_435_455,
];

/// Forms of four groups: the least, the greatest, one that promises a fifth
/// group, and one that is not the shortest.
const FOUR_GROUPS: [[u8; 4]; 4] =
    [[0x80, 0x80, 0x80, 0x01], [0xff, 0xff, 0xff, 0x7f], [0x80; 4], [0x80, 0x80, 0x80, 0x00]];

/// Each number of a file in turn at every edge and in each form of four
/// groups, and the file cut after each byte of that form.
pub fn edges(board: &Board) -> Vec<Vec<u8>> {
    let numbers = design_numbers(board);
    let mut damaged = Vec::new();
    for place in 0..numbers.len() {
        let (before, after) = (bytes_of(&numbers[..place]), bytes_of(&numbers[place + 1..]));
        for edge in EDGES {
            damaged.push([&before[..], &number_bytes(edge), &after].concat());
        }
        for form in FOUR_GROUPS {
            damaged.push([&before[..], &form, &after].concat());
            damaged.extend((1..=4).map(|length| [&before, &form[..length]].concat()));
        }
    }
    damaged
}

/// One change at each place of a file: its high bit, its neighbours, the ends
/// of a group; each cut; each byte doubled; and the file twice.
pub fn sweep(file: &[u8]) -> Vec<Vec<u8>> {
    let mut damaged = Vec::new();
    for (place, &byte) in file.iter().enumerate() {
        for other in [byte ^ 0x80, byte.wrapping_add(1), byte.wrapping_sub(1), 0, 0x7f, 0x80, 0xff] {
            damaged.push(changed(file, place, other));
        }
        damaged.push(file[..place].to_vec());
        damaged.push(doubled(file, place));
    }
    damaged.push(file.repeat(2));
    damaged
}

/// Every other value at every place.
pub fn every_byte_changed(file: &[u8]) -> impl Iterator<Item = Vec<u8>> + '_ {
    (0..file.len()).flat_map(move |place| {
        let others = (0..=255).filter(move |&other| other != file[place]);
        others.map(move |other| changed(file, place, other))
    })
}

fn changed(file: &[u8], place: usize, byte: u8) -> Vec<u8> {
    let mut damaged = file.to_vec();
    damaged[place] = byte;
    damaged
}

fn doubled(file: &[u8], place: usize) -> Vec<u8> {
    let mut damaged = file.to_vec();
    damaged.insert(place, file[place]);
    damaged
}

/// A design file with one fault, or by chance with none.
pub fn design(board: &Board, rng: &mut Rng) -> Vec<u8> {
    if rng.once_in(2) {
        return bytes(&bytes_of(&design_numbers(board)), rng);
    }
    numbers(&with_bad_links(board, rng), rng)
}

pub fn order(order: &Order, rng: &mut Rng) -> Vec<u8> {
    let numbers = self::numbers(&order_numbers(order), rng);
    if rng.once_in(4) {
        bytes(&numbers, rng)
    } else {
        numbers
    }
}

/// Damage that knows bytes only.
fn bytes(file: &[u8], rng: &mut Rng) -> Vec<u8> {
    let place = rng.below(file.len());
    match rng.below(7) {
        0 | 1 => changed(file, place, rng.byte()),
        2 => file[..place].to_vec(),
        3 => doubled(file, place),
        4 => file.repeat(2),
        5 => [&file[..place], &file[place + 1..]].concat(),
        _ => [file, &[rng.byte()]].concat(),
    }
}

/// Damage that keeps the other numbers whole, so that faults far into the
/// file are met too.
fn numbers(numbers: &[u32], rng: &mut Rng) -> Vec<u8> {
    let place = rng.below(numbers.len());
    let number = numbers[place];
    let instead = match rng.below(10) {
        0..=3 => number_bytes(rng.one_of(&EDGES)),
        4 => number_bytes(number + 1),
        5 => number_bytes(number.saturating_sub(1)),
        6 => longer(number),
        7 => vec![0x80, 0x80, 0x80, 0x80, 0x01],
        8 => number_bytes(1 << 28),
        _ => number_bytes(numbers[rng.below(numbers.len())]),
    };
    [bytes_of(&numbers[..place]), instead, bytes_of(&numbers[place + 1..])].concat()
}

/// The same number with a last group of zero.
fn longer(number: u32) -> Vec<u8> {
    let mut bytes = number_bytes(number);
    *bytes.last_mut().expect("a number has a byte") |= 0x80;
    bytes.push(0);
    bytes
}

/// The file's numbers, now and then with two links exchanged, a link twice, or
/// a link from a part to itself.
fn with_bad_links(board: &Board, rng: &mut Rng) -> Vec<u32> {
    let mut numbers = design_numbers(board);
    let links = board.links.len();
    let first = numbers.len() - 2 * links;
    let bend = rng.below(6);
    if links >= 2 && bend < 2 {
        let here = first + 2 * rng.below(links - 1);
        let (from, to) = (numbers[here], numbers[here + 1]);
        numbers[here] = numbers[here + 2];
        numbers[here + 1] = numbers[here + 3];
        if bend == 0 {
            numbers[here + 2] = from;
            numbers[here + 3] = to;
        }
    }
    if links >= 1 && bend == 2 {
        let here = first + 2 * rng.below(links);
        numbers[here + 1] = numbers[here];
    }
    numbers
}
