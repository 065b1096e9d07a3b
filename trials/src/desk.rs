//! One held board: load, order, write, the tally, and the questions.

use crate::board::{Board, Rule, MOST_LINKS};
use crate::file::{read_design, read_order, write_design, Order};
use crate::refusal::Refusal;
use crate::solve::{cheapest, Budget};

#[derive(Clone, Copy, Debug, Default, PartialEq, Eq)]
pub struct Tally {
    pub taken: u32,
    pub refused: u32,
}

impl Tally {
    /// The lent tally may hold anything, so its sum may need 33 bits.
    fn is_full(&self) -> bool {
        u64::from(self.taken) + u64::from(self.refused) >= 65_535
    }
}

#[derive(Clone, Debug, PartialEq, Eq)]
pub struct Held {
    pub board: Board,
    pub budget: Budget,
}

impl Held {
    fn plan(board: Board) -> Result<Held, Refusal> {
        board.check_loops_and_times()?;
        let budget = cheapest(&board);
        Ok(Held { board, budget })
    }

    /// The design file of the board.
    pub fn file(&self) -> Vec<u8> {
        write_design(&self.board)
    }

    pub fn is_critical(&self, link: (usize, usize)) -> bool {
        self.board.arrival(link, &self.budget.ends) == self.budget.starts[link.1]
    }

    fn critical_links(&self) -> impl Iterator<Item = (usize, usize)> + '_ {
        self.board.links.iter().copied().filter(|&link| self.is_critical(link))
    }

    /// Upstream and downstream of every part.
    pub fn cones(&self) -> Vec<(Marks, Marks)> {
        let marked = |(up, down)| (Marks::of_parts(up), Marks::of_parts(down));
        self.board.cones().into_iter().map(marked).collect()
    }

    /// The parent set of a part, then the child set.
    pub fn parents_and_children(&self, part: usize) -> (Marks, Marks) {
        let (parents, children) = self.families(part);
        (Marks::of(parents), Marks::of(children))
    }

    /// Parents and children by turns until neither grows.
    fn families(&self, part: usize) -> (u64, u64) {
        let (mut parents, mut children) = (mark(part), 0);
        loop {
            let before = (parents, children);
            for (from, to) in self.critical_links() {
                if parents & mark(from) != 0 {
                    children |= mark(to);
                }
            }
            for (from, to) in self.critical_links() {
                if children & mark(to) != 0 {
                    parents |= mark(from);
                }
            }
            if before == (parents, children) {
                return before;
            }
        }
    }
}

fn mark(part: usize) -> u64 {
    1 << part
}

/// A set of 64 marks and the number of parts marked.
#[derive(Clone, Copy, Debug, PartialEq, Eq)]
pub struct Marks {
    pub set: u64,
    pub count: u32,
}

impl Marks {
    fn of(set: u64) -> Marks {
        Marks { set, count: set.count_ones() }
    }

    fn of_parts(parts: impl IntoIterator<Item = usize>) -> Marks {
        Marks::of(parts.into_iter().map(mark).sum())
    }
}

/// What came of an order. Where it cannot be read, it took no bytes.
#[derive(Clone, Debug, PartialEq, Eq)]
pub struct Answer {
    pub took: usize,
    pub verdict: Result<(), Refusal>,
}

#[derive(Clone, Debug, Default, PartialEq, Eq)]
pub struct Desk {
    held: Option<Held>,
}

impl Desk {
    /// The held board and its budget: refusal 11.
    pub fn held(&self) -> Result<&Held, Refusal> {
        self.held.as_ref().ok_or(Refusal::at(11, 0))
    }

    /// The rule comes as its number and is looked at before the file.
    pub fn load(&mut self, rule: u64, file: &[u8], tally: &mut Tally) -> Result<(), Refusal> {
        let held = Held::plan(read_design(Rule::named(rule)?, file)?)?;
        self.held = Some(held);
        *tally = Tally::default();
        Ok(())
    }

    /// Reads the first order of `bytes` and tries it.
    pub fn order(&mut self, bytes: &[u8], tally: &mut Tally) -> Answer {
        let (order, took) = match read_order(bytes) {
            Ok(read) => read,
            Err(refusal) => return Answer { took: 0, verdict: Err(refusal) },
        };
        let verdict = match self.tried(&order, tally) {
            Ok(held) => {
                self.held = Some(held);
                tally.taken += 1;
                Ok(())
            }
            Err(refusal) => {
                if is_counted(&refusal) {
                    tally.refused += 1;
                }
                Err(refusal)
            }
        };
        Answer { took, verdict }
    }

    /// The desk as it would be: 11, 18, 17, the order's own refusals, 9, 10.
    fn tried(&self, order: &Order, tally: &Tally) -> Result<Held, Refusal> {
        let held = self.held()?;
        if tally.is_full() {
            return Err(Refusal::at(18, 0));
        }
        for part in parts_named(order) {
            if part >= held.board.parts() {
                return Err(Refusal::at(17, part));
            }
        }
        let mut board = held.board.clone();
        change(&mut board, order)?;
        Held::plan(board)
    }

    /// Writes the design file at the front of `buffer` and says its length.
    pub fn write(&self, buffer: &mut [u8]) -> Result<usize, Refusal> {
        let file = self.held()?.file();
        if buffer.len() < file.len() {
            return Err(Refusal::at(16, file.len()));
        }
        buffer[..file.len()].copy_from_slice(&file);
        Ok(file.len())
    }

    /// Refusals 11 and 17 of every question about a part.
    fn asked(&self, part: u64) -> Result<(&Held, usize), Refusal> {
        let held = self.held()?;
        if part >= held.board.parts() as u64 {
            return Err(Refusal::asked(17, part));
        }
        Ok((held, part as usize))
    }

    pub fn upstream(&self, part: u64) -> Result<Marks, Refusal> {
        let (held, part) = self.asked(part)?;
        Ok(Marks::of_parts(held.board.upstream(part)))
    }

    pub fn downstream(&self, part: u64) -> Result<Marks, Refusal> {
        let (held, part) = self.asked(part)?;
        Ok(Marks::of_parts(held.board.downstream(part)))
    }

    /// The parent set, then the child set.
    pub fn parents_and_children(&self, part: u64) -> Result<(Marks, Marks), Refusal> {
        let (held, part) = self.asked(part)?;
        Ok(held.parents_and_children(part))
    }

    pub fn power(&self, part: u64, delay: u64) -> Result<u32, Refusal> {
        let (held, part) = self.asked(part)?;
        let power = u32::try_from(delay).ok().and_then(|delay| held.board.curves[part].power_at(delay));
        power.ok_or(Refusal::asked(19, delay))
    }
}

fn parts_named(order: &Order) -> Vec<usize> {
    match order {
        Order::Deadline(_) => vec![],
        Order::Add(from, to) | Order::Remove(from, to) => vec![*from, *to],
        Order::Replace(part, _) => vec![*part],
    }
}

/// Changes a copy of the board as ordered: 7, 13, 15, or 14.
fn change(board: &mut Board, order: &Order) -> Result<(), Refusal> {
    match order {
        Order::Deadline(deadline) => board.deadline = *deadline,
        Order::Add(from, to) => add(board, (*from, *to))?,
        Order::Remove(from, to) => {
            if !board.links.remove(&(*from, *to)) {
                return Err(Refusal::at(14, 0));
            }
        }
        Order::Replace(part, curve) => board.curves[*part] = curve.clone(),
    }
    Ok(())
}

fn add(board: &mut Board, link: (usize, usize)) -> Result<(), Refusal> {
    if link.0 == link.1 {
        return Err(Refusal::at(7, 0));
    }
    if board.links.contains(&link) {
        return Err(Refusal::at(13, 0));
    }
    if board.links.len() == MOST_LINKS {
        return Err(Refusal::at(15, 0));
    }
    board.links.insert(link);
    Ok(())
}

fn is_counted(refusal: &Refusal) -> bool {
    [7, 9, 10, 13, 14, 15, 17].contains(&refusal.number)
}

/// The label on line `line` of a name sheet, looked up in the sheet alone.
/// Only a whole line of 1 to 16 good bytes is a label.
pub fn label(sheet: &[u8], line: u64) -> Result<&[u8], Refusal> {
    let found =
        sheet.split(|&byte| byte == 10).zip(0..).find(|&(_, number)| number == line).map(|(label, _)| label);
    match found {
        Some(label) if is_good(label) => Ok(label),
        _ => Err(Refusal::at(20, 0)),
    }
}

fn is_good(label: &[u8]) -> bool {
    (1..=16).contains(&label.len()) && label.iter().all(|byte| (33..=126).contains(byte))
}
