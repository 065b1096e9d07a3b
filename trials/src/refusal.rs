//! A refusal: its number in the paper, its place, and the path at number 10.

#[derive(Clone, Debug, PartialEq, Eq)]
pub struct Refusal {
    pub number: u32,
    /// A byte, a part, a count of ticks or whatever number was asked for.
    pub place: u64,
    /// Parts from first to last; empty except at refusal 10.
    pub path: Vec<usize>,
}

impl Refusal {
    pub fn at(number: u32, place: usize) -> Refusal {
        Refusal::asked(number, place as u64)
    }

    /// The place is a number that was asked for.
    pub fn asked(number: u32, place: u64) -> Refusal {
        Refusal { number, place, path: Vec::new() }
    }
}
