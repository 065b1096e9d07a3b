//! The stored script of the program `calls`: every call, accepted and refused,
//! in an order that can be read beside its output.

use crate::calls::Call;

/// Board K of the paper, and its file's length.
const K: &str =
    "01 0A 04 02 64 02 02 14 01 05 03 5A 01 03 0C 01 32 01 02 0C 04 28 02 01 06 01 02 03 00 01 00 03 01 02";
const K_LENGTH: u64 = 34;
/// Board D.
const D: &str = "01 03 03 01 0A 01 01 05 01 0A 01 01 03 01 0A 01 01 03 02 00 01 00 02";
const SHEET: &[u8] = b"AMP\nVIA\n\nnot a label\nTRACE";

fn bytes(hex: &str) -> Vec<u8> {
    hex.split(' ').map(|byte| u8::from_str_radix(byte, 16).expect("two hex digits")).collect()
}

fn load(hex: &str) -> Call {
    Call::Load(bytes(hex))
}

fn order(hex: &str) -> Call {
    Call::Order(bytes(hex))
}

fn write(size: u64) -> Call {
    Call::Write { size, version: 1, rule: 0 }
}

/// Nothing is held at first.
fn on_an_empty_desk() -> Vec<Call> {
    vec![
        Call::Counts,
        Call::State,
        order("01 09"),
        Call::Power(0, 2),
        Call::Up(0),
        Call::Down(0),
        Call::Sets(0),
        write(0),
    ]
}

/// Boards and orders of the paper's cases, with everything that is then held.
fn cases() -> Vec<Call> {
    vec![
        Call::Rule(0),
        load(K),
        Call::State,
        order("02 03 01 01 09"), // case 8; the bytes behind it are the next order's
        Call::State,
        order("01 09"), // case 9
        order("03 03 01"),
        order("01 09"), // case 10
        Call::State,
        Call::Counts,
        order("02 02 00"),
        order("04 07 01 00 00"),
        order("05"),
        load("01 0A 02 01 00 00 01 00 00 02 00 01 01 00"),
        load("01"),
        Call::Counts,
        load(D),
        Call::State,
        Call::Counts,
    ]
}

/// Every question of board K, within its parts and curves and outside.
fn questions() -> Vec<Call> {
    let mut calls = vec![load(K)];
    for delay in [1, 2, 3, 4, 5, 6, 1 << 32, u64::MAX] {
        calls.push(Call::Power(0, delay));
    }
    for part in [0, 3, 4, 64, u64::MAX] {
        calls.extend([Call::Power(part, 4), Call::Up(part), Call::Down(part), Call::Sets(part)]);
    }
    for size in [0, K_LENGTH - 1, K_LENGTH, K_LENGTH + 1, 65_536, 65_537, u64::MAX] {
        calls.push(write(size));
    }
    for line in [0, 1, 2, 3, 4, 5, u64::MAX] {
        calls.push(Call::Label(line, SHEET.to_vec()));
    }
    calls.push(Call::Label(0, Vec::new()));
    calls
}

/// A tally that somebody else wrote to, up to where it is full, and past what
/// it can hold.
fn tallies() -> Vec<Call> {
    let mut calls = Vec::new();
    for (taken, refused) in [(65_534, 0), (0, 65_535), (1 << 32, 0), (u64::MAX, u64::MAX)] {
        calls.extend([Call::Tally(taken, refused), Call::Counts, order("01 0B"), order("01 0B")]);
    }
    calls.extend([
        load(K),
        Call::Counts,
        order("01 0B"),
        Call::Drop,
        Call::Counts,
        order("01 0B"),
        Call::State,
    ]);
    calls
}

/// Both rules: the edge of a deadline, numbers that name no rule, a second load
/// under the other rule, and a board that one rule allows alone.
fn rules() -> Vec<Call> {
    let mut calls = Vec::new();
    // One part of 1 to 256 ticks, deadlines 63, 64 and 128; then one of 64 to 64.
    let curve = "01 BC 32 01 FF 01 19";
    for (rule, deadline) in [(0, "3F"), (1, "3F"), (0, "40"), (1, "40"), (1, "80 01"), (0, "80 01")] {
        calls.extend([Call::Rule(rule), load(&format!("01 {deadline} 01 {curve} 00")), Call::State]);
    }
    for rule in [2, 1 << 32, (1 << 32) + 1, u64::MAX] {
        calls.extend([Call::Rule(rule), load(K), load("00"), Call::State]);
    }
    for rule in [1, 0] {
        calls.extend([Call::Rule(rule), load("01 40 01 40 00 00 00"), Call::State]);
    }
    calls.extend([Call::Rule(1), load(K), order("01 80 01"), Call::State, Call::Rule(0), order("01 3F"), Call::State]);
    calls.extend([load("00"), Call::State, load(K)]);
    calls
}

/// All of them, and last a call that is cut short.
pub fn tour() -> Vec<u8> {
    let calls = [on_an_empty_desk(), cases(), questions(), tallies(), rules()].concat();
    let mut script = crate::calls::script(&calls);
    let cut = Call::Power(0, 2).bytes();
    script.extend(&cut[..cut.len() - 1]);
    script
}
