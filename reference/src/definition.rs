//! The timing tests by definition: every t, or w, is tried in turn.

use crate::question::{Case, Item, Question};

pub trait TimingTest {
    fn response(&self, question: &Question) -> Option<u64>;

    fn passes(&self, question: &Question) -> bool {
        self.response(question).is_some()
    }
}

/// Lower items are interrupted.
pub struct Board;

/// A message once begun is not interrupted.
pub struct Bus;

/// Another test, with the window of the item asked reduced by some ticks.
pub struct Margin<'a> {
    pub ticks: u64,
    pub test: &'a dyn TimingTest,
}

impl TimingTest for Board {
    fn response(&self, question: &Question) -> Option<u64> {
        question.case()?.board_response()
    }
}

impl TimingTest for Bus {
    fn response(&self, question: &Question) -> Option<u64> {
        question.case()?.bus_response()
    }
}

impl TimingTest for Margin<'_> {
    fn response(&self, question: &Question) -> Option<u64> {
        self.test.response(&self.reduced(question)?)
    }

    fn passes(&self, question: &Question) -> bool {
        self.reduced(question)
            .is_some_and(|reduced| self.test.passes(&reduced))
    }
}

impl Margin<'_> {
    /// The question with the smaller window; none if there is no such item, or if its length no
    /// longer fits.
    fn reduced(&self, question: &Question) -> Option<Question> {
        let mut reduced = question.clone();
        let item = reduced.table.get_mut(question.place)?;
        item.window = item.window.checked_sub(self.ticks)?;
        (item.length <= item.window).then_some(reduced)
    }
}

impl Case {
    pub fn board_response(&self) -> Option<u64> {
        let Item { length, window, .. } = self.item;
        let demand = |t: u64| -> u64 {
            let before = |above: &Item| t.div_ceil(above.period) * above.length;
            length + self.above.iter().map(before).sum::<u64>()
        };
        (1..=window).find(|&t| demand(t) <= t)
    }

    pub fn bus_response(&self) -> Option<u64> {
        let Item { length, window, .. } = self.item;
        let blocking = self
            .below
            .iter()
            .fold(length, |longest, below| longest.max(below.length));
        let demand = |w: u64| -> u64 {
            let before = |above: &Item| (w / above.period + 1) * above.length;
            blocking + self.above.iter().map(before).sum::<u64>()
        };
        (0..=window)
            .take_while(|w| w + length <= window)
            .find(|&w| demand(w) <= w)
            .map(|w| w + length)
    }
}

#[cfg(test)]
mod tests {
    use super::*;

    type Numbers = (u64, u64, u64);

    fn item((length, period, window): Numbers) -> Item {
        Item::new(length, period, window)
    }

    /// A question about the first item.
    fn question(asked: Numbers, above: &[Numbers], below: &[Numbers]) -> Question {
        let first_below = 1 + above.len();
        let numbers = [&[asked], above, below].concat();
        Question {
            table: numbers.into_iter().map(item).collect(),
            place: 0,
            above: (1..first_below).collect(),
            below: (first_below..first_below + below.len()).collect(),
        }
    }

    #[test]
    fn limits() {
        assert!(!item((5, 10, 4)).within_limits());
        assert!(item((4, 10, 4)).within_limits());
        assert!(item((1, 1_000_000, 1_000_000)).within_limits());
        assert!(!item((1, 1_000_001, 1_000_000)).within_limits());
    }

    #[test]
    fn board() {
        assert_eq!(
            Board.response(&question((3, 20, 5), &[(2, 5, 5)], &[])),
            Some(5)
        );
        assert_eq!(
            Board.response(&question((3, 20, 4), &[(2, 5, 5)], &[])),
            None
        );
        assert!(Board.passes(&question((3, 20, 5), &[(2, 5, 5)], &[])));
        assert!(!Board.passes(&question((3, 20, 4), &[(2, 5, 5)], &[])));
    }

    #[test]
    fn bus() {
        assert!(Bus.passes(&question((2, 20, 6), &[(1, 3, 3)], &[])));
        assert!(!Bus.passes(&question((2, 20, 5), &[(1, 3, 3)], &[])));
        assert!(Bus.passes(&question((1, 10, 5), &[], &[(4, 20, 8)])));
        assert!(!Bus.passes(&question((1, 10, 4), &[], &[(4, 20, 8)])));
        assert_eq!(Bus.response(&question((3, 20, 6), &[], &[])), Some(6));
    }

    #[test]
    fn margins() {
        let question = question((3, 20, 7), &[(2, 5, 5)], &[]);
        let over = |test, ticks| Margin { ticks, test };
        assert!(over(&Board, 2).passes(&question));
        assert_eq!(over(&Board, 2).response(&question), Some(5));
        assert!(!over(&Board, 3).passes(&question));
        assert!(!over(&Board, u32::MAX.into()).passes(&question));

        // A margin is a test itself.
        let one = Margin {
            ticks: 1,
            test: &Board,
        };
        assert!(over(&one, 1).passes(&question));
        assert!(!over(&one, 2).passes(&question));
    }

    #[test]
    fn improper_is_no() {
        let proper = question((1, 20, 20), &[(1, 9, 9)], &[(1, 9, 9)]);
        let longer = |by| {
            let mut longer = proper.clone();
            longer.table.extend(vec![item((1, 9, 9)); by]);
            longer
        };
        let with = |place, above: &[usize], below: &[usize]| Question {
            place,
            above: above.to_vec(),
            below: below.to_vec(),
            ..proper.clone()
        };
        for question in [proper.clone(), longer(29), with(2, &[0, 1], &[])] {
            assert!(Board.passes(&question) && Bus.passes(&question));
        }
        for question in [
            longer(30),
            with(3, &[1], &[2]),
            with(0, &[1, 3], &[2]),
            with(0, &[1], &[2, 31]),
            with(0, &[1, 2], &[2]),
            with(0, &[0, 1], &[2]),
            with(0, &[1], &[0, 2]),
        ] {
            assert!(!Board.passes(&question) && !Bus.passes(&question));
        }
    }
}
