//! A second planner, written from the paper alone and by other means than the
//! proved one, so that the two can be compared case by case.
//!
//! It shares neither code nor method with the proved planner: links are held
//! in an ordered set, files are read by a cursor, and the cheapest budget is
//! found by a minimum-cost flow along longest paths (`solve`), which is tried
//! against all budgets of small boards and against a climb by least cuts
//! (`climb`) on large ones.

#![forbid(unsafe_code)]

pub mod board;
pub mod bundle;
pub mod calls;
pub mod climb;
pub mod desk;
pub mod file;
pub mod make;
pub mod player;
pub mod refusal;
pub mod report;
pub mod rng;
pub mod solve;
