//! Design files and orders as bytes, both ways: refusals 1 to 8 and 12.
//!
//! A cursor goes left to right and stops at the first fault.

use crate::board::*;
use crate::refusal::Refusal;
use std::collections::BTreeSet;

/// The most groups of seven bits that a number may have.
const MOST_GROUPS: u32 = 4;

#[derive(Clone, Debug, PartialEq, Eq)]
pub enum Order {
    Deadline(u32),
    Add(usize, usize),
    Remove(usize, usize),
    Replace(usize, Curve),
}

impl Order {
    pub fn kind(&self) -> u32 {
        match self {
            Order::Deadline(_) => 1,
            Order::Add(..) => 2,
            Order::Remove(..) => 3,
            Order::Replace(..) => 4,
        }
    }
}

/// A number and the place of its first byte.
#[derive(Clone, Copy)]
struct Number {
    value: u32,
    place: usize,
}

struct Cursor<'a> {
    bytes: &'a [u8],
    at: usize,
}

impl Cursor<'_> {
    /// One number: refusals 1 and 2.
    fn number(&mut self) -> Result<Number, Refusal> {
        let place = self.at;
        let mut value = 0;
        for group in 0..MOST_GROUPS {
            let Some(&byte) = self.bytes.get(self.at) else {
                return Err(Refusal::at(1, self.bytes.len()));
            };
            self.at += 1;
            value += u32::from(byte % 128) << (7 * group);
            if byte < 128 {
                let needless = group > 0 && byte == 0;
                return if needless { Err(Refusal::at(2, place)) } else { Ok(Number { value, place }) };
            }
        }
        Err(Refusal::at(2, place))
    }

    /// One number from `least` to `most`: also refusal 4.
    fn within(&mut self, least: u32, most: u32) -> Result<Number, Refusal> {
        let number = self.number()?;
        if number.value < least || number.value > most {
            return Err(Refusal::at(4, number.place));
        }
        Ok(number)
    }

    fn run(&mut self, before: Option<Run>) -> Result<Run, Refusal> {
        let length = self.within(1, MOST_LENGTH)?.value;
        let saving = self.within(1, MOST_SAVING)?;
        if before.is_some_and(|run| saving.value >= run.saving) {
            return Err(Refusal::at(5, saving.place));
        }
        Ok(Run { length, saving: saving.value })
    }

    fn curve(&mut self) -> Result<Curve, Refusal> {
        let fastest = self.within(1, MOST_FASTEST)?.value;
        let power = self.within(0, MOST_POWER)?;
        let count = self.within(0, MOST_RUNS as u32)?.value;
        let mut runs = Vec::new();
        for _ in 0..count {
            let run = self.run(runs.last().copied())?;
            runs.push(run);
        }
        let curve = Curve { fastest, power: power.value, runs };
        if curve.power < curve.savings() {
            return Err(Refusal::at(6, power.place));
        }
        Ok(curve)
    }

    /// Both ends are read before refusal 7 is looked at.
    fn link(&mut self, parts: usize, last: Option<&(usize, usize)>) -> Result<(usize, usize), Refusal> {
        let from = self.within(0, parts as u32 - 1)?;
        let to = self.within(0, parts as u32 - 1)?;
        let link = (from.value as usize, to.value as usize);
        let ascends = last.is_none_or(|before| *before < link);
        if link.0 == link.1 || !ascends {
            return Err(Refusal::at(7, from.place));
        }
        Ok(link)
    }

    fn links(&mut self, parts: usize) -> Result<BTreeSet<(usize, usize)>, Refusal> {
        let count = self.within(0, MOST_LINKS as u32)?.value;
        let mut links = BTreeSet::new();
        for _ in 0..count {
            let link = self.link(parts, links.last())?;
            links.insert(link);
        }
        Ok(links)
    }

    /// A part number in an order; whether the board has it is asked later.
    fn part(&mut self) -> Result<usize, Refusal> {
        Ok(self.within(0, MOST_PARTS as u32 - 1)?.value as usize)
    }
}

/// Reads a design file: refusals 1 to 8. Loops and times come after.
pub fn read_design(rule: Rule, bytes: &[u8]) -> Result<Board, Refusal> {
    let mut cursor = Cursor { bytes, at: 0 };
    if cursor.number()?.value != 1 {
        return Err(Refusal::at(3, 0));
    }
    let deadline = cursor.within(1, MOST_DEADLINE)?.value;
    let parts = cursor.within(1, MOST_PARTS as u32)?.value as usize;
    let curves = (0..parts).map(|_| cursor.curve()).collect::<Result<Vec<_>, _>>()?;
    let links = cursor.links(parts)?;
    if cursor.at < bytes.len() {
        return Err(Refusal::at(8, cursor.at));
    }
    Ok(Board { rule, deadline, curves, links })
}

/// Reads the first order of `bytes` alone (refusals 1, 2, 12, 4, 5, 6) and
/// says how many bytes it took.
pub fn read_order(bytes: &[u8]) -> Result<(Order, usize), Refusal> {
    let mut cursor = Cursor { bytes, at: 0 };
    let kind = cursor.number()?;
    let order = match kind.value {
        1 => Order::Deadline(cursor.within(1, MOST_DEADLINE)?.value),
        2 => Order::Add(cursor.part()?, cursor.part()?),
        3 => Order::Remove(cursor.part()?, cursor.part()?),
        4 => Order::Replace(cursor.part()?, cursor.curve()?),
        _ => return Err(Refusal::at(12, kind.place)),
    };
    Ok((order, cursor.at))
}

/// The shortest form of any number, groups of seven bits, lowest first.
pub fn number_bytes(value: u32) -> Vec<u8> {
    let mut bytes = Vec::new();
    let mut rest = value;
    while rest >= 128 {
        bytes.push((rest % 128) as u8 + 128);
        rest /= 128;
    }
    bytes.push(rest as u8);
    bytes
}

pub fn bytes_of(numbers: &[u32]) -> Vec<u8> {
    numbers.iter().flat_map(|&number| number_bytes(number)).collect()
}

pub fn curve_numbers(curve: &Curve) -> Vec<u32> {
    let mut numbers = vec![curve.fastest, curve.power, curve.runs.len() as u32];
    for run in &curve.runs {
        numbers.extend([run.length, run.saving]);
    }
    numbers
}

/// The numbers of a design file, in the file's order.
pub fn design_numbers(board: &Board) -> Vec<u32> {
    let mut numbers = vec![1, board.deadline, board.parts() as u32];
    for curve in &board.curves {
        numbers.extend(curve_numbers(curve));
    }
    numbers.push(board.links.len() as u32);
    for &(from, to) in &board.links {
        numbers.extend([from as u32, to as u32]);
    }
    numbers
}

pub fn order_numbers(order: &Order) -> Vec<u32> {
    let mut numbers = vec![order.kind()];
    match order {
        Order::Deadline(deadline) => numbers.push(*deadline),
        Order::Add(from, to) | Order::Remove(from, to) => {
            numbers.extend([*from as u32, *to as u32]);
        }
        Order::Replace(part, curve) => {
            numbers.push(*part as u32);
            numbers.extend(curve_numbers(curve));
        }
    }
    numbers
}

pub fn write_design(board: &Board) -> Vec<u8> {
    bytes_of(&design_numbers(board))
}

pub fn write_order(order: &Order) -> Vec<u8> {
    bytes_of(&order_numbers(order))
}
