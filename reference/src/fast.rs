//! The timing tests the fast way: straight from each demand to the next, with a look at the shares
//! where that takes long.

use crate::question::{self, MOST_ITEMS};

/// Within the limits, so that 32 bits are enough: a demand at a t within a window is below
/// 32 × 2,000,000.
#[derive(Clone, Copy, Debug, Default)]
pub struct Item {
    length: u32,
    period: u32,
    window: u32,
}

impl Item {
    /// None outside the limits.
    pub fn new(item: &question::Item) -> Option<Item> {
        item.within_limits().then_some(Item {
            length: item.length as u32,
            period: item.period as u32,
            window: item.window as u32,
        })
    }

    /// Length over period in units of 2^-32, rounded down.
    fn share(&self) -> u64 {
        (u64::from(self.length) << 32) / u64::from(self.period)
    }
}

/// The places below `items`, as far as a set can hold them.
pub fn all_places(items: usize) -> u32 {
    ((1_u64 << items.min(MOST_ITEMS)) - 1) as u32
}

#[derive(Clone, Copy, Debug)]
pub struct Question<'a> {
    pub table: &'a [Item],
    pub place: usize,
    pub above: u32,
    pub below: u32,
}

impl Question<'_> {
    pub fn board_response(&self) -> Option<u32> {
        let item = self.asked()?;
        self.least(item, item.length, item.window, |t| {
            let before = |above: &Item| t.div_ceil(above.period) * above.length;
            item.length + self.members(self.above).map(before).sum::<u32>()
        })
    }

    pub fn bus_response(&self) -> Option<u32> {
        let item = self.asked()?;
        let blocking = self
            .members(self.below)
            .fold(item.length, |longest, below| longest.max(below.length));
        let w = self.least(item, blocking, item.window - item.length, |w| {
            let before = |above: &Item| (w / above.period + 1) * above.length;
            blocking + self.members(self.above).map(before).sum::<u32>()
        })?;
        Some(w + item.length)
    }

    fn is_proper(&self) -> bool {
        let both = self.above | self.below;
        self.table.len() <= MOST_ITEMS
            && self.place < self.table.len()
            && both & !all_places(self.table.len()) == 0
            && self.above & self.below == 0
            && both >> self.place & 1 == 0
    }

    /// The item asked; none if the question is improper.
    fn asked(&self) -> Option<&Item> {
        self.is_proper().then(|| &self.table[self.place])
    }

    /// Whether the shares of the item and of those above come to more than 1.
    fn is_overload(&self, item: &Item) -> bool {
        item.share() + self.members(self.above).map(Item::share).sum::<u64>() > 1 << 32
    }

    /// The least t from `first` to `last` that covers its demand. Demand never falls as t grows, so
    /// no t below the demand just seen needs a try.
    fn least(
        &self,
        item: &Item,
        first: u32,
        last: u32,
        demand: impl Fn(u32) -> u32,
    ) -> Option<u32> {
        let mut t = first;
        let mut turns = 0;
        while t <= last {
            let needed = demand(t);
            if needed <= t {
                return Some(t);
            }
            turns += 1;
            if turns == 9 && self.is_overload(item) {
                return None;
            }
            t = needed;
        }
        None
    }

    /// The items of a set, in table order. A proper table has no place 32, so an empty set ends it.
    fn members(&self, mut set: u32) -> impl Iterator<Item = &Item> {
        std::iter::from_fn(move || {
            let item = self.table.get(set.trailing_zeros() as usize)?;
            set &= set - 1;
            Some(item)
        })
    }
}

#[cfg(test)]
mod tests {
    use super::*;
    use crate::definition::{Board, Bus, TimingTest};
    use crate::random::Random;

    #[test]
    fn agrees_with_the_definition() {
        let mut random = Random::new(7);
        let mut passes = 0;
        for _ in 0..20_000 {
            let n = random.pick(&[0, 1, 2, 3, 4, 5, 6, 8, 31, 32, 33]);
            let longest = random.pick(&[4, 12, 60, 300]);
            let items: Vec<_> = (0..n)
                .map(|_| {
                    let period = random.between(longest / 4, longest);
                    let window = random.between(1, period);
                    let length = random.between(1, (window * 2).div_ceil(n));
                    question::Item::new(length.min(window), period, window)
                })
                .collect();
            let place = random.between(0, n.max(1) - 1);
            // Mostly proper: now and then a set is left as it comes.
            let others = all_places(n as usize) & !1_u32.checked_shl(place as u32).unwrap_or(0);
            let mut set = |within: u32| {
                let any = random.between(0, u32::MAX.into()) as u32;
                if random.chance(95) { any & within } else { any }
            };
            let above = set(others);
            let below = set(others & !above);
            let place = if random.chance(95) {
                place
            } else {
                random.between(0, 70)
            } as usize;

            let table: Option<Vec<Item>> = items.iter().map(Item::new).collect();
            let table = &table.unwrap()[..];
            let fast = Question {
                table,
                place,
                above,
                below,
            };
            let slow = question::Question {
                table: items,
                place,
                above: question::places(above),
                below: question::places(below),
            };
            let board = Board.response(&slow);
            let bus = Bus.response(&slow);
            assert_eq!(fast.board_response().map(u64::from), board, "{slow:?}");
            assert_eq!(fast.bus_response().map(u64::from), bus, "{slow:?}");
            passes += board.iter().count() + bus.iter().count();
        }
        // Both kinds of answer come up often enough for the comparison to mean something.
        assert!((10_000..30_000).contains(&passes), "{passes} of 40000");
    }
}
