//! Scripts for the support program `calls`: a row of calls, each one byte, then
//! its numbers, each eight bytes, lowest first, then its byte strings, each its
//! length as such a number and the bytes.

/// No byte string is longer.
pub const LONGEST: usize = 65_536;

#[derive(Clone, Debug, PartialEq, Eq)]
pub enum Call {
    Rule(u64),
    Drop,
    Load(Vec<u8>),
    Order(Vec<u8>),
    Tally(u64, u64),
    Counts,
    Power(u64, u64),
    Up(u64),
    Down(u64),
    Sets(u64),
    Label(u64, Vec<u8>),
    Write { size: u64, version: u64, rule: u64 },
    State,
}

impl Call {
    /// Its byte, its numbers and its byte string.
    fn pieces(&self) -> (u8, Vec<u64>, Option<&[u8]>) {
        match self {
            Call::Rule(rule) => (1, vec![*rule], None),
            Call::Drop => (2, vec![], None),
            Call::Load(file) => (3, vec![], Some(file)),
            Call::Order(bytes) => (4, vec![], Some(bytes)),
            Call::Tally(taken, refused) => (5, vec![*taken, *refused], None),
            Call::Counts => (6, vec![], None),
            Call::Power(part, delay) => (7, vec![*part, *delay], None),
            Call::Up(part) => (8, vec![*part], None),
            Call::Down(part) => (9, vec![*part], None),
            Call::Sets(part) => (10, vec![*part], None),
            Call::Label(line, sheet) => (11, vec![*line], Some(sheet)),
            Call::Write { size, version, rule } => (12, vec![*size, *version, *rule], None),
            Call::State => (13, vec![], None),
        }
    }

    pub fn bytes(&self) -> Vec<u8> {
        let (byte, numbers, string) = self.pieces();
        let mut bytes = vec![byte];
        for number in numbers {
            bytes.extend(number.to_le_bytes());
        }
        if let Some(string) = string {
            bytes.extend((string.len() as u64).to_le_bytes());
            bytes.extend(string);
        }
        bytes
    }
}

pub fn script(calls: &[Call]) -> Vec<u8> {
    calls.iter().flat_map(Call::bytes).collect()
}

/// The calls of a script one after another; `None` in the place of one that is
/// cut short or unknown, which is the last.
pub struct Calls<'a> {
    rest: &'a [u8],
}

pub fn calls(script: &[u8]) -> Calls<'_> {
    Calls { rest: script }
}

impl Iterator for Calls<'_> {
    type Item = Option<Call>;

    fn next(&mut self) -> Option<Option<Call>> {
        if self.rest.is_empty() {
            return None;
        }
        let call = self.call();
        if call.is_none() {
            self.rest = &[];
        }
        Some(call)
    }
}

impl Calls<'_> {
    fn call(&mut self) -> Option<Call> {
        Some(match self.take(1)?[0] {
            1 => Call::Rule(self.number()?),
            2 => Call::Drop,
            3 => Call::Load(self.string()?),
            4 => Call::Order(self.string()?),
            5 => Call::Tally(self.number()?, self.number()?),
            6 => Call::Counts,
            7 => Call::Power(self.number()?, self.number()?),
            8 => Call::Up(self.number()?),
            9 => Call::Down(self.number()?),
            10 => Call::Sets(self.number()?),
            11 => Call::Label(self.number()?, self.string()?),
            12 => Call::Write { size: self.number()?, version: self.number()?, rule: self.number()? },
            13 => Call::State,
            _ => return None,
        })
    }

    fn take(&mut self, count: usize) -> Option<&[u8]> {
        let (taken, rest) = self.rest.split_at_checked(count)?;
        self.rest = rest;
        Some(taken)
    }

    fn number(&mut self) -> Option<u64> {
        let bytes = self.take(8)?;
        Some(bytes.iter().rev().fold(0, |number, &byte| number << 8 | u64::from(byte)))
    }

    fn string(&mut self) -> Option<Vec<u8>> {
        let length = usize::try_from(self.number()?).ok().filter(|&length| length <= LONGEST)?;
        Some(self.take(length)?.to_vec())
    }
}
