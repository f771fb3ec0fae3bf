//! Items, and questions about a table of them.

/// The most items a table of a proper question may have.
pub const MOST_ITEMS: usize = 32;

/// The longest period, in ticks.
pub const LONGEST_PERIOD: u64 = 1_000_000;

/// A part ready for a test.
///
/// The fields are open and nothing is checked on making one, so that questions with items outside
/// the limits can be written down too.
#[derive(Clone, Copy, Debug, PartialEq, Eq)]
pub struct Item {
    pub length: u64,
    pub period: u64,
    pub window: u64,
}

impl Item {
    /// The item written (C, T, W).
    pub const fn new(length: u64, period: u64, window: u64) -> Item {
        Item {
            length,
            period,
            window,
        }
    }

    pub fn within_limits(&self) -> bool {
        1 <= self.length
            && self.length <= self.window
            && self.window <= self.period
            && self.period <= LONGEST_PERIOD
    }
}

/// Reads a table from its numbers, C T W for each item; none if the last item is not whole.
pub fn items(numbers: &[u32]) -> Option<Vec<Item>> {
    let (triples, []) = numbers.as_chunks::<3>() else {
        return None;
    };
    let item = |&[c, t, w]: &[u32; 3]| Item::new(c.into(), t.into(), w.into());
    Some(triples.iter().map(item).collect())
}

/// The places of a set, in table order.
pub fn places(set: u32) -> Vec<usize> {
    (0..32).filter(|place| set >> place & 1 == 1).collect()
}

/// Does the item at `place` pass, with the items `above` before it and those `below` after it?
#[derive(Clone, Debug)]
pub struct Question {
    pub table: Vec<Item>,
    pub place: usize,
    pub above: Vec<usize>,
    pub below: Vec<usize>,
}

/// What a proper question comes down to.
#[derive(Clone, Debug)]
pub struct Case {
    pub item: Item,
    pub above: Vec<Item>,
    pub below: Vec<Item>,
}

impl Question {
    pub fn is_proper(&self) -> bool {
        let inside = |&place: &usize| place < self.table.len();
        self.table.len() <= MOST_ITEMS
            && inside(&self.place)
            && self.above.iter().all(inside)
            && self.below.iter().all(inside)
            && !self.above.iter().any(|place| self.below.contains(place))
            && !self.above.contains(&self.place)
            && !self.below.contains(&self.place)
    }

    /// The items the question is about; none if it is improper.
    pub fn case(&self) -> Option<Case> {
        let items = |places: &[usize]| places.iter().map(|&place| self.table[place]).collect();
        self.is_proper().then(|| Case {
            item: self.table[self.place],
            above: items(&self.above),
            below: items(&self.below),
        })
    }
}
