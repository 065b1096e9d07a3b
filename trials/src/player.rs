//! What the support program `calls` prints for a script, by the second planner.
//! A request that brings another line to `state` adds it to `held_lines`, one that
//! brings another call to `answer`.

use crate::calls::{calls, Call};
use crate::desk::{label, Answer, Desk, Held, Marks, Tally};
use crate::refusal::Refusal;
use crate::report::{budget_lines, facts, hex, line, spaced};
use std::io::{self, Write};

/// The largest buffer that a write is lent.
const LARGEST_BUFFER: u64 = 65_536;

/// What is held from call to call.
#[derive(Default)]
struct Player {
    desk: Desk,
    tally: Tally,
    /// What later loads name.
    rule: u64,
}

pub fn play(script: &[u8], out: &mut impl Write) -> io::Result<()> {
    let mut player = Player::default();
    for call in calls(script) {
        let text = call.map_or("stopped\n".to_string(), |call| player.answer(&call));
        out.write_all(text.as_bytes())?;
    }
    Ok(())
}

pub fn played(script: &[u8]) -> String {
    let mut text = Vec::new();
    play(script, &mut text).expect("a text takes any line");
    String::from_utf8(text).expect("what is printed is text")
}

impl Player {
    /// Calls that change what is held; all others ask.
    fn answer(&mut self, call: &Call) -> String {
        let mut text = String::new();
        match call {
            Call::Rule(rule) => self.rule = *rule,
            Call::Drop => self.desk = Desk::default(),
            Call::Load(file) => self.load(&mut text, file),
            Call::Order(bytes) => self.order(&mut text, bytes),
            Call::Tally(taken, refused) => {
                self.tally = Tally { taken: count(*taken), refused: count(*refused) }
            }
            _ => self.ask(&mut text, call),
        }
        text
    }

    fn ask(&self, text: &mut String, call: &Call) {
        match call {
            Call::Counts => line(text, format_args!("tally {} {}", self.tally.taken, self.tally.refused)),
            Call::Power(part, delay) => {
                asked(text, "power", self.desk.power(*part, *delay).map(|power| format!("value {power}")))
            }
            Call::Up(part) => asked(text, "up", self.desk.upstream(*part).map(cone)),
            Call::Down(part) => asked(text, "down", self.desk.downstream(*part).map(cone)),
            Call::Sets(part) => asked(text, "sets", self.desk.parents_and_children(*part).map(families)),
            Call::Label(number, sheet) => match label(sheet, *number) {
                Ok(name) => line(text, format_args!("label no 0 {}", hex(name))),
                Err(refusal) => line(text, format_args!("label no {} -", refusal.number)),
            },
            Call::Write { size, .. } => self.write(text, *size),
            Call::State => match self.desk.held() {
                Ok(held) => held_lines(text, held),
                Err(_) => line(text, format_args!("held 0")),
            },
            _ => unreachable!("a call that changes what is held"),
        }
    }

    fn load(&mut self, text: &mut String, file: &[u8]) {
        let verdict = self.desk.load(self.rule, file, &mut self.tally);
        line(text, format_args!("load {}", fact_words(&verdict)));
    }

    fn order(&mut self, text: &mut String, bytes: &[u8]) {
        let Answer { took, verdict } = self.desk.order(bytes, &mut self.tally);
        let Tally { taken, refused } = self.tally;
        line(text, format_args!("order {} took {took} tally {taken} {refused}", fact_words(&verdict)));
    }

    fn write(&self, text: &mut String, size: u64) {
        let mut buffer = vec![0; size.min(LARGEST_BUFFER) as usize];
        let verdict = self.desk.write(&mut buffer);
        let file = verdict.as_ref().map_or("-".to_string(), |&length| hex(&buffer[..length]));
        line(text, format_args!("write {} file {file}", fact_words(&verdict)));
    }
}

/// Every fact of the held board.
fn held_lines(text: &mut String, held: &Held) {
    line(text, format_args!("held 1"));
    line(text, format_args!("rule {:?}", held.board.rule));
    line(text, format_args!("deadline {} usable {}", held.board.deadline, held.board.usable()));
    line(text, format_args!("file {}", hex(&held.file())));
    budget_lines(text, &held.board, &held.budget);
    for &link in &held.board.links {
        let critical = u32::from(held.is_critical(link));
        line(text, format_args!("link {} {} critical {critical}", link.0, link.1));
    }
    for (part, (up, down)) in held.cones().into_iter().enumerate() {
        let (up, down, families) = (marks(up), marks(down), families(held.parents_and_children(part)));
        line(text, format_args!("sets {part} up {up} down {down} {families}"));
    }
}

/// A count of the tally has 32 bits; a greater one is asked for at the greatest.
fn count(number: u64) -> u32 {
    number.min(u64::from(u32::MAX)) as u32
}

fn marks(marks: Marks) -> String {
    format!("{} {}", marks.set, marks.count)
}

fn cone(marks: Marks) -> String {
    format!("set {} count {}", marks.set, marks.count)
}

fn families((parents, children): (Marks, Marks)) -> String {
    format!("parents {} children {}", marks(parents), marks(children))
}

/// Number, place and path, as loads, orders and writes show them.
fn fact_words<T>(verdict: &Result<T, Refusal>) -> String {
    let (number, place, path) = facts(verdict);
    format!("no {number} place {place} path {}{}", path.len(), spaced(path))
}

/// A question's answer, or what it is refused for.
fn asked(text: &mut String, question: &str, answer: Result<String, Refusal>) {
    match answer {
        Ok(words) => line(text, format_args!("{question} no 0 {words}")),
        Err(refusal) => line(text, format_args!("{question} no {} place {}", refusal.number, refusal.place)),
    }
}
