//! What the programs print, run as programs.

mod common;
use common::*;
use std::fs;
use std::path::PathBuf;
use std::process::Command;
use trials::calls::{calls, script, Call};
use trials::file::write_design;
use trials::player::played;
use trials::{make, report};

/// A folder for one test; what an earlier run left there is overwritten.
fn folder(name: &str) -> PathBuf {
    let folder = PathBuf::from(env!("CARGO_TARGET_TMPDIR")).join(name);
    fs::create_dir_all(&folder).expect("a folder can be made");
    folder
}

fn printed(words: &[&str]) -> String {
    let output = Command::new(env!("CARGO_BIN_EXE_trials")).args(words).output().expect("the program runs");
    String::from_utf8(output.stdout).expect("it prints text")
}

const EXAMPLE: &str = "order 2 refused 10
part label start delay end power
0 AMP 0 4 4 60
1 VIA 4 3 7 90
2 BUF 7 2 9 38
3 TRACE 4 5 9 34
total 222
orders 3 taken 1 refused
";

#[test]
fn the_papers_example() {
    let folder = folder("example");
    fs::write(folder.join("board.dat"), bytes(K_HEX)).unwrap();
    fs::write(folder.join("orders.dat"), bytes("02 03 01 01 09 03 03 01 01 09")).unwrap();
    fs::write(folder.join("names.txt"), "AMP\nVIA\nBUF\nTRACE\n").unwrap();
    assert_eq!(printed(&["show", folder.to_str().unwrap()]), EXAMPLE);
}

#[test]
fn missing_files_are_empty() {
    let folder = folder("missing");
    assert_eq!(printed(&["show", folder.to_str().unwrap()]), "refused 1 0\n");
}

#[test]
fn only_the_first_bytes_are_read() {
    let folder = folder("long");
    let mut file = bytes(K_HEX);
    file.resize(3_000, 0x80);
    fs::write(folder.join("board.dat"), &file).unwrap();
    assert_eq!(printed(&["show", folder.to_str().unwrap()]), "refused 8 34\n");
    fs::write(folder.join("board.dat"), bytes(K_HEX)).unwrap();
    // 65,536 bytes are 32,768 orders; the rest is not looked at.
    let orders = bytes("01 0A").repeat(40_000);
    fs::write(folder.join("orders.dat"), &orders).unwrap();
    let shown = printed(&["show", folder.to_str().unwrap()]);
    assert!(shown.ends_with("total 208\norders 32768 taken 0 refused\n"));
    // An order cut off at the last byte read.
    let orders = [bytes("01 0A").repeat(32_767), bytes("02 00 01 01")].concat();
    fs::write(folder.join("orders.dat"), &orders).unwrap();
    let shown = printed(&["show", folder.to_str().unwrap()]);
    assert!(shown.starts_with("stopped 1 65536\n"));
}

#[test]
fn orders_that_cannot_be_read() {
    let stops =
        [("01 09 05 01 08", "stopped 12 2"), ("01 0B 01 80 00", "stopped 2 3"), ("01", "stopped 1 1")];
    for (orders, first) in stops {
        let shown = report::show(&bytes(K_HEX), &bytes(orders), b"");
        assert_eq!(shown.lines().next(), Some(first));
        assert!(shown.contains("\n0 - 0 "));
    }
}

#[test]
fn a_refused_load_prints_no_more() {
    let slow = write_design(&one_part(4, curve(5, 255, &[(255, 1)])));
    assert_eq!(report::show(&slow, &bytes("01 09"), b""), "refused 10 5\n");
}

#[test]
fn every_fact_of_k() {
    let expected = "load no 0 place 0 path 0
order no 0 place 0 path 0 took 3 tally 1 0
order no 10 place 10 path 4 0 3 1 2 took 2 tally 1 1
order no 0 place 0 path 0 took 3 tally 2 1
order no 12 place 0 path 0 took 0 tally 2 1
held 1
rule A
deadline 10 usable 10
file 010a0402640202140105035a01030c013201020c0428020106010203000100030102
part 0 start 0 delay 4 end 4 power 60
part 1 start 4 delay 3 end 7 power 90
part 2 start 7 delay 3 end 10 power 26
part 3 start 4 delay 6 end 10 power 32
total 208
link 0 1 critical 1
link 0 3 critical 1
link 1 2 critical 1
sets 0 up 1 1 down 15 4 parents 1 1 children 10 2
sets 1 up 3 2 down 6 2 parents 2 1 children 4 1
sets 2 up 7 3 down 4 1 parents 4 1 children 0 0
sets 3 up 9 2 down 8 1 parents 8 1 children 0 0
tally 2 1
held 0
tally 2 1
";
    let order = |hex: &str| Call::Order(bytes(hex));
    let orders = [order("02 03 01 01 09"), order("01 09"), order("03 03 01"), order("05")];
    let around = [vec![Call::Load(bytes(K_HEX))], orders.to_vec(), vec![Call::State, Call::Counts]].concat();
    let dropped = [Call::Drop, Call::State, Call::Counts];
    assert_eq!(played(&script(&[around, dropped.to_vec()].concat())), expected);
}

#[test]
fn questions_about_k() {
    let write = |size| Call::Write { size, version: 1, rule: 0 };
    let sheet = b"AMP\n\nB".to_vec();
    let asked = [
        (Call::Power(0, 5), "power no 0 value 55\n"),
        (Call::Power(0, 6), "power no 19 place 6\n"),
        (Call::Power(4, 6), "power no 17 place 4\n"),
        (Call::Up(2), "up no 0 set 7 count 3\n"),
        (Call::Down(u64::MAX), "down no 17 place 18446744073709551615\n"),
        (Call::Sets(0), "sets no 0 parents 1 1 children 10 2\n"),
        (Call::Label(0, sheet.clone()), "label no 0 414d50\n"),
        (Call::Label(1, sheet), "label no 20 -\n"),
        (write(33), "write no 16 place 34 path 0 file -\n"),
        (Call::Tally(1 << 40, 7), ""),
        (Call::Counts, "tally 4294967295 7\n"),
        (Call::Rule(9), ""),
    ];
    let loaded = Call::Load(bytes(K_HEX));
    let before = "load no 0 place 0 path 0\n";
    for (call, line) in asked {
        let calls = [loaded.clone(), call.clone(), Call::Counts];
        let after = if matches!(call, Call::Tally(..)) { "tally 4294967295 7\n" } else { "tally 0 0\n" };
        let line = if call == Call::Counts { "tally 0 0\n" } else { line };
        assert_eq!(played(&script(&calls)), format!("{before}{line}{after}"), "{call:?}");
    }
    let k = "010a0402640202140105035a01030c013201020c0428020106010203000100030102";
    for size in [34, 35, 65_536, u64::MAX] {
        let text = played(&script(&[loaded.clone(), write(size)]));
        assert_eq!(text, format!("{before}write no 0 place 0 path 0 file {k}\n"));
    }
}

/// A call that is cut short anywhere, and a byte that is no call, stop it.
#[test]
fn scripts_that_stop() {
    let every = [
        Call::Rule(1),
        Call::Load(bytes(K_HEX)),
        Call::Tally(1, 2),
        Call::Power(1, 2),
        Call::Label(1, vec![65; 3]),
    ];
    for call in every {
        let whole = call.bytes();
        for end in 1..whole.len() {
            assert_eq!(played(&whole[..end]), "stopped\n", "{call:?} cut to {end}");
        }
    }
    for byte in [0, 14, 255] {
        assert_eq!(played(&[&Call::Counts.bytes()[..], &[byte, 6]].concat()), "tally 0 0\nstopped\n");
    }
    let longest = Call::Label(0, vec![65; 65_536]).bytes();
    assert_eq!(played(&longest), "label no 20 -\n");
    let longer = Call::Label(0, vec![65; 65_537]).bytes();
    assert_eq!(played(&longer), "stopped\n");
    assert_eq!(played(&[]), "");
}

/// The stored script is the tour, it has every call, and its stored output is
/// what this planner prints.
#[test]
fn the_stored_script() {
    let stored = PathBuf::from(env!("CARGO_MANIFEST_DIR")).join("../crates/calls");
    let tour = make::tour();
    assert_eq!(fs::read(stored.join("data/calls.dat")).unwrap(), tour, "trials tour writes it");
    assert_eq!(fs::read_to_string(stored.join("stdout")).unwrap(), played(&tour));
    let mut kinds: Vec<u8> = calls(&tour).flatten().map(|call| call.bytes()[0]).collect();
    kinds.sort_unstable();
    kinds.dedup();
    assert_eq!(kinds, (1..=13).collect::<Vec<u8>>());
}

#[test]
fn the_same_seed_makes_the_same_script() {
    let folder = folder("made");
    let path = |name: &str| folder.join(name).to_str().unwrap().to_string();
    for kind in ["loads", "designs", "sessions", "steps", "questions", "advised"] {
        let (one, other) = (path("one"), path("other"));
        printed(&["make", kind, "20", "12", &one]);
        printed(&["make", kind, "20", "12", &other]);
        let made = fs::read(&one).unwrap();
        assert_eq!(made, fs::read(&other).unwrap());
        if kind != "advised" {
            let read: Vec<Call> = calls(&made).map(|call| call.expect("no call is cut short")).collect();
            assert_eq!(script(&read), made);
            assert_eq!(printed(&["calls", &one]), played(&made));
        }
    }
}

#[test]
fn differences_are_named() {
    assert_eq!(report::differences(b"a\nb\n", b"a\nb\n"), None);
    let text = report::differences(b"a\nb\n", b"a\nc\n").unwrap();
    assert_eq!(text, "1 of 3 lines differ\nline 2\n< b\n> c\n");
    assert!(report::differences(b"a\n", b"a").is_some());
}
