//! Sessions: a board loaded, orders of every kind, and between them what else
//! may happen to a desk and its tally.

use super::{boards, damage, orders};
use crate::calls::Call;
use crate::desk::{Desk, Tally};
use crate::file::{write_design, write_order};
use crate::rng::Rng;

/// `count` sessions; what is then held is asked for at the end of each.
pub fn sessions(count: usize, rng: &mut Rng) -> Vec<Call> {
    (0..count).flat_map(|_| [session(rng), vec![Call::Counts, Call::State]].concat()).collect()
}

/// `count` sessions; what is held is asked for after each call.
pub fn steps(count: usize, rng: &mut Rng) -> Vec<Call> {
    let all = (0..count).flat_map(|_| session(rng)).collect::<Vec<_>>();
    all.into_iter().flat_map(|call| [call, Call::State]).collect()
}

/// The calls of a session, and a desk of our own that has taken them, so that
/// orders suit the board as it stands.
struct Session {
    calls: Vec<Call>,
    desk: Desk,
    tally: Tally,
}

fn session(rng: &mut Rng) -> Vec<Call> {
    let mut session = Session { calls: Vec::new(), desk: Desk::default(), tally: Tally::default() };
    session.load(rng);
    let most = if rng.once_in(10) { 100 } else { 24 };
    for _ in 0..rng.below(most) {
        session.order(rng);
        if rng.once_in(12) {
            session.disturb(rng);
        }
    }
    if rng.once_in(4) {
        let board = boards::board_in_time(rng);
        session.calls.push(Call::Order(damage::order(&orders::order(&board, rng), rng)));
    }
    session.calls
}

impl Session {
    /// A board under either rule; one in sixteen is damaged.
    fn load(&mut self, rng: &mut Rng) {
        let board = boards::board(rng);
        let file = if rng.once_in(16) { damage::design(&board, rng) } else { write_design(&board) };
        let rule = super::rule(rng);
        let _ = self.desk.load(rule, &file, &mut self.tally);
        self.calls.extend([Call::Rule(rule), Call::Load(file)]);
    }

    /// An order, half of them with bytes of another behind it.
    fn order(&mut self, rng: &mut Rng) {
        let board = self.desk.held().map_or_else(|_| boards::board_in_time(rng), |held| held.board.clone());
        let mut bytes = write_order(&orders::order(&board, rng));
        self.desk.order(&bytes, &mut self.tally);
        if rng.once_in(2) {
            bytes.extend(write_order(&orders::order(&board, rng)));
        }
        self.calls.push(Call::Order(bytes));
    }

    /// A damaged order, a refused load, another board, an empty desk, or a
    /// tally that somebody else wrote to.
    fn disturb(&mut self, rng: &mut Rng) {
        match rng.below(6) {
            0 => {
                let board = boards::board_in_time(rng);
                let bytes = damage::order(&orders::order(&board, rng), rng);
                self.desk.order(&bytes, &mut self.tally);
                self.calls.push(Call::Order(bytes));
            }
            1 => self.refused_load(rng),
            2 => self.load(rng),
            3 => {
                self.desk = Desk::default();
                self.calls.extend([Call::Drop, Call::Order(vec![1, 9]), Call::Counts]);
                if !rng.once_in(4) {
                    self.load(rng);
                }
            }
            _ => self.foreign_tally(rng),
        }
    }

    fn refused_load(&mut self, rng: &mut Rng) {
        let board = boards::board(rng);
        let mut file = write_design(&board);
        if board.check_loops_and_times().is_ok() {
            file.truncate(rng.below(file.len()));
        }
        self.calls.push(Call::Load(file));
    }

    /// Most often there is room for a few orders more, so that the tally fills.
    fn foreign_tally(&mut self, rng: &mut Rng) {
        let taken = count(rng);
        let refused = match rng.below(3) {
            0 => count(rng),
            1 => 0,
            _ => 65_535u64.saturating_sub(taken).saturating_sub(rng.below(4) as u64),
        };
        self.calls.push(Call::Tally(taken, refused));
        let limit = |count: u64| count.min(u64::from(u32::MAX)) as u32;
        self.tally = Tally { taken: limit(taken), refused: limit(refused) };
    }
}

/// A count at or next to the end of a range, or a small one.
pub fn count(rng: &mut Rng) -> u64 {
    let edges = [0, 1, 32_767, 65_530, 65_534, 65_535, 65_536, 1 << 31, (1 << 32) - 1, 1 << 32, u64::MAX];
    if rng.once_in(2) {
        return rng.one_of(&edges);
    }
    rng.below(65_536) as u64
}
