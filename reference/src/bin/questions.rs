//! Prints the questions of the cross-check, the same at every run.

use reference::line::{Kind, Line};
use reference::question::{Case, Item, LONGEST_PERIOD, places};
use reference::random::Random;

fn main() {
    let mut maker = Maker {
        random: Random::new(20),
    };
    maker.section(340, Maker::ordinary);
    maker.section(60, Maker::long_table);
    maker.section(60, Maker::special_margin);
    maker.section(90, |maker, kind, pair| {
        let whole = [12, 24, 32, 36, 60, 64, 120, 128, 360, 1024];
        let whole = maker.random.pick(&whole);
        maker.shares_near_one(kind, pair, whole)
    });
    maker.section(6, |maker, kind, pair| {
        maker.shares_near_one(kind, pair, LONGEST_PERIOD)
    });
    for (lines, longest) in [(12, 1_000), (8, LONGEST_PERIOD)] {
        maker.section(lines, |maker, kind, pair| {
            maker.two_shares_near_one(kind, pair, longest)
        });
    }
    maker.section(8, Maker::many_turns);
    maker.section(8, Maker::large_windows);
    maker.section(66, Maker::at_limits);
    maker.section(4, Maker::heaviest);
    for fault in Fault::ALL {
        maker.section(22, |maker, kind, pair| maker.improper(kind, pair, fault));
    }
    maker.section(12, Maker::empty_table);
    maker.section(64, Maker::one_bad_item);
    maker.section(16, Maker::worse_items);
}

#[derive(Clone, Copy)]
enum Fault {
    LongTable,
    PlaceOutside,
    AboveOutside,
    BelowOutside,
    Overlap,
    AboveHoldsPlace,
    BelowHoldsPlace,
}

impl Fault {
    const ALL: [Fault; 7] = [
        Fault::LongTable,
        Fault::PlaceOutside,
        Fault::AboveOutside,
        Fault::BelowOutside,
        Fault::Overlap,
        Fault::AboveHoldsPlace,
        Fault::BelowHoldsPlace,
    ];
}

// Items at the limits.
const TINY: Item = Item::new(1, 1, 1);
const FULL: Item = Item::new(LONGEST_PERIOD, LONGEST_PERIOD, LONGEST_PERIOD);
const RARE: Item = Item::new(1, LONGEST_PERIOD, LONGEST_PERIOD);

struct Maker {
    random: Random,
}

/// The sections.
impl Maker {
    /// Prints so many lines, about the board and the bus by turns. Each pair has a number, from
    /// which the line may take what it is to be like.
    fn section(&mut self, lines: usize, make: impl Fn(&mut Maker, Kind, usize) -> Line) {
        for line in 0..lines {
            let kind = [Kind::Board, Kind::Bus][line % 2];
            println!("{}", make(self, kind, line / 2));
        }
    }

    fn ordinary(&mut self, kind: Kind, _: usize) -> Line {
        let items = if self.random.chance(92) {
            self.random.between(1, 12)
        } else {
            self.random.between(13, 30)
        };
        let percent = self.random.pick(&[40, 70, 100, 130, 160]);
        let mut line = self.proper(kind, items, percent);
        self.move_window(&mut line);
        self.choose_margin(&mut line);
        line
    }

    /// 31 or 32 items, with an eye on the last place.
    fn long_table(&mut self, kind: Kind, pair: usize) -> Line {
        let items = [31, 32, 32][pair % 3];
        let last = items as u32 - 1;
        let percent = self.random.pick(&[50, 90, 130]);
        let mut line = self.proper(kind, items, percent);
        let place = self.random.between(0, items - 2) as u32;
        ask(&mut line, place);
        let others = u32::MAX >> (31 - last) & !bit(place);
        match pair / 3 % 5 {
            0 => (line.above, line.below) = (line.above | bit(last), line.below & !bit(last)),
            1 => (line.above, line.below) = (line.above & !bit(last), line.below | bit(last)),
            2 => ask(&mut line, last),
            3 => (line.above, line.below) = (others, 0),
            _ => (line.above, line.below) = (0, others),
        }
        self.move_window(&mut line);
        self.choose_margin(&mut line);
        line
    }

    /// An item that passes, and a margin of note. Now and then nothing is above, so that even the
    /// greatest margin that leaves the length can pass.
    fn special_margin(&mut self, kind: Kind, pair: usize) -> Line {
        loop {
            let items = self.random.between(1, 6);
            let mut line = self.proper(kind, items, 60);
            if pair.is_multiple_of(2) {
                line.above = 0;
            }
            if response(&line).is_some() {
                line.margin = special_margins(&line)[pair % 5];
                return line;
            }
        }
    }

    /// Shares that come to one part in `whole` less than 1, to 1 exactly, or to one part more.
    fn shares_near_one(&mut self, kind: Kind, pair: usize, whole: u64) -> Line {
        let periods: Vec<u64> = (2..=whole)
            .filter(|&period| whole.is_multiple_of(period))
            .collect();
        let mut left = [whole - 1, whole, whole + 1][pair % 3];
        let mut items = Vec::new();
        let wanted = self.random.between(1, 6);
        while items.len() < wanted as usize && left > 1 {
            let period = self.random.pick(&periods);
            let parts = whole / period;
            let longest = ((left - 1) / parts).min(period.div_ceil(2));
            if longest > 0 {
                let length = self.random.between(1, longest);
                left -= length * parts;
                items.push(Item::new(length, period, period));
            }
        }
        items.push(Item::new(left, whole, whole));
        let mut line = under_all(kind, items);
        if self.random.chance(30) {
            self.move_window(&mut line);
        }
        self.choose_margin(&mut line);
        line
    }

    /// Two shares p/q + r/s that miss 1 by 1/(q s) only: with long periods by less than one unit
    /// of 2^-32.
    fn two_shares_near_one(&mut self, kind: Kind, pair: usize, longest: u64) -> Line {
        loop {
            let q = self.random.between(longest / 4, longest / 2);
            let s = self.random.between(longest / 2, longest);
            // p s + r q is to be:
            let sum = [q * s - 1, q * s + 1][pair % 2];
            if let Some(r) = (1..s).find(|r| (sum - r * q).is_multiple_of(s)) {
                let p = (sum - r * q) / s;
                return under_all(kind, vec![Item::new(p, q, q), Item::new(r, s, s)]);
            }
        }
    }

    /// Shares above just under 1: going from each demand to the next takes thousands of turns.
    fn many_turns(&mut self, kind: Kind, pair: usize) -> Line {
        let busy = |period| Item::new(1, period, period);
        let length = self.random.between(50, 500);
        let asked = Item { length, ..RARE };
        let mut line = under_all(kind, vec![busy(2), busy(3), busy(7), busy(43), asked]);
        if let Some(response) = response(&line) {
            set_window(&mut line, response + [0, 1][pair % 2]);
            line.margin = [0, 1, 1, 2][pair % 4];
        }
        line
    }

    fn large_windows(&mut self, kind: Kind, pair: usize) -> Line {
        let items = self.random.between(2, 5);
        let table = (0..items).map(|_| self.item(300_000, 80 / items)).collect();
        let mut line = under_all(kind, table);
        asked(&mut line).period = LONGEST_PERIOD;
        set_window(&mut line, LONGEST_PERIOD);
        if let Some(response) = response(&line) {
            let windows = [LONGEST_PERIOD, response, response - 1];
            set_window(&mut line, windows[pair % 3]);
        }
        self.choose_margin(&mut line);
        line
    }

    /// The items at the limits alone, with each special margin, and each with each.
    fn at_limits(&mut self, kind: Kind, pair: usize) -> Line {
        let limits = [TINY, FULL, RARE];
        let (asked, way) = (limits[pair % 3], pair / 3);
        let mut line = under_all(kind, vec![asked]);
        let margins = special_margins(&line);
        if way < 5 {
            line.margin = margins[way];
        } else {
            line.margin = self.random.pick(&margins);
            line.items.push(limits[way % 3]);
            if way < 8 {
                line.above = 0b10;
            } else {
                line.below = 0b10;
            }
        }
        line
    }

    /// Shares, or a demand, as large as they get.
    fn heaviest(&mut self, kind: Kind, pair: usize) -> Line {
        under_all(kind, vec![[TINY, FULL][pair % 2]; 32])
    }

    /// One fault; if nobody minded it, the item would pass.
    fn improper(&mut self, kind: Kind, pair: usize, fault: Fault) -> Line {
        loop {
            let items = match (fault, pair) {
                (Fault::LongTable, _) => [33, 33, 34][pair % 3],
                (Fault::AboveOutside | Fault::BelowOutside, 0) => 31,
                (_, 0) => 32,
                (_, 1) => 31,
                _ => self.random.between(2, 10),
            };
            let mut line = self.proper(kind, items, 40);
            if items > 32 && pair < 3 {
                ask(&mut line, items as u32 - 1);
            }
            let Item { period, .. } = *asked(&mut line);
            set_window(&mut line, period);
            let place = line.place;
            self.spoil(&mut line, pair, fault);
            if careless_response(&line, place).is_some() {
                line.margin = self.random.pick(&[0, 0, 1, u32::MAX]);
                return line;
            }
        }
    }

    fn empty_table(&mut self, kind: Kind, pair: usize) -> Line {
        let (place, above, below) = [
            (0, 0, 0),
            (0, 1, 0),
            (0, 0, 1),
            (31, 0, 0),
            (32, 0, 0),
            (u32::MAX, 1, 2),
        ][pair];
        Line {
            kind,
            margin: 0,
            place,
            above,
            below,
            items: vec![],
        }
    }

    /// An item that passes, then one limit broken by one, anywhere in the table.
    fn one_bad_item(&mut self, kind: Kind, pair: usize) -> Line {
        let items = self.random.between(1, 6);
        let mut line = self.passing(kind, items);
        let place = match pair / 4 % 2 {
            0 => line.place as usize,
            _ => self.random.between(0, items - 1) as usize,
        };
        let item = &mut line.items[place];
        match pair % 4 {
            0 => item.length = 0,
            1 => item.length = item.window + 1,
            2 => item.window = item.period + 1,
            _ => item.period = LONGEST_PERIOD + 1,
        }
        line
    }

    /// Items far outside the limits, two of them, or one in an improper question.
    fn worse_items(&mut self, kind: Kind, pair: usize) -> Line {
        let most = u64::from(u32::MAX);
        let [nothing, everything, long, slow, shut] = [
            Item::new(0, 0, 0),
            Item::new(most, most, most),
            Item::new(most, 10, 10),
            Item::new(1, most, 1),
            Item::new(1, 10, 0),
        ];
        let items = if pair == 7 { 33 } else { 4 };
        let mut line = self.passing(kind, items);
        match pair {
            0 => line.items[0] = nothing,
            1 => line.items[1] = everything,
            2 => line.items[2] = long,
            3 => line.items[3] = slow,
            4 => (line.items[1], line.items[3]) = (shut, nothing),
            5 => (line.items[0], line.items[2]) = (everything, shut),
            6 => (line.items[3], line.place) = (nothing, 4),
            _ => line.items[32] = slow,
        }
        line
    }
}

/// The building blocks.
impl Maker {
    /// An item whose share is about `percent` in the mean.
    fn item(&mut self, longest: u64, percent: u64) -> Item {
        let period = self.random.between(longest.div_ceil(6), longest);
        let length = self
            .random
            .between(1, (2 * period * percent / 100).clamp(1, period));
        Item::new(length, period, self.random.between(length, period))
    }

    /// A question without a margin, proper unless the table is too long. The shares of all items
    /// come to about `percent`.
    fn proper(&mut self, kind: Kind, items: u64, percent: u64) -> Line {
        let longest = match items {
            0..=4 => self.random.pick(&[6, 12, 40, 150]),
            5..=12 => self.random.pick(&[24, 60, 150, 400]),
            _ => 600,
        };
        let table = (0..items)
            .map(|_| self.item(longest, percent / items))
            .collect();
        let mut line = Line {
            kind,
            margin: 0,
            place: 0,
            above: 0,
            below: 0,
            items: table,
        };
        let [above, below] =
            self.random
                .pick(&[[0, 60], [30, 40], [50, 50], [60, 20], [80, 20], [100, 0]]);
        for place in 0..items.min(32) as u32 {
            let draw = self.random.between(1, 100);
            if draw <= above {
                line.above |= bit(place);
            } else if draw <= above + below {
                line.below |= bit(place);
            }
        }
        let place = self.random.between(0, items.min(32) - 1);
        ask(&mut line, place as u32);
        line
    }

    /// The same with an item that passes, or would if the table were not too long.
    fn passing(&mut self, kind: Kind, items: u64) -> Line {
        loop {
            let line = self.proper(kind, items, 40);
            if careless_response(&line, line.place).is_some() {
                return line;
            }
        }
    }

    /// Moves the window of the item asked to where it matters, the response or one less; or to the
    /// period; or leaves it.
    fn move_window(&mut self, line: &mut Line) {
        let Item { period, window, .. } = *asked(line);
        set_window(line, period);
        match (self.random.between(1, 10), response(line)) {
            (1..=3, Some(response)) => set_window(line, response),
            (4..=5, Some(response)) => set_window(line, response - 1),
            (6..=7, _) => set_window(line, window),
            _ => {}
        }
    }

    /// A special margin, one at which the answer changes, or any that leaves the length.
    fn choose_margin(&mut self, line: &mut Line) {
        let Item { length, window, .. } = *asked(line);
        let slack = (window - response(line).unwrap_or(length)) as u32;
        line.margin = match self.random.between(1, 20) {
            1..=8 => self.random.pick(&special_margins(line)),
            // Taken from the window in 32 bits without care, this would make it longer.
            9 => u32::MAX - self.random.between(0, 100) as u32,
            10..=13 => slack,
            14..=18 => slack + 1,
            _ => self.random.between(0, window - length) as u32,
        };
    }

    fn spoil(&mut self, line: &mut Line, pair: usize, fault: Fault) {
        let items = line.items.len() as u32;
        let place = line.place;
        // The first place outside, the last that a set can hold, or any between.
        let mut outside = || match pair % 3 {
            0 => 31,
            1 => items,
            _ => self.random.between(items.into(), 31) as u32,
        };
        match fault {
            Fault::LongTable => {}
            // Most of these are the place again if only some bits are looked at.
            Fault::PlaceOutside => {
                line.place = match pair {
                    0 | 1 => items,
                    2 => items + 1,
                    3 => u32::MAX,
                    _ => place + [32, 64, 1 << 8, 1 << 16, 1 << 31][pair % 5],
                }
            }
            Fault::AboveOutside => line.above |= bit(outside()),
            Fault::BelowOutside => line.below |= bit(outside()),
            Fault::Overlap => {
                let both = (place + 1 + self.random.between(0, (items - 2).into()) as u32) % items;
                line.above |= bit(both);
                line.below |= bit(both);
            }
            Fault::AboveHoldsPlace => line.above |= bit(place),
            Fault::BelowHoldsPlace => line.below |= bit(place),
        }
    }
}

/// A question about the last item, with all others above.
fn under_all(kind: Kind, items: Vec<Item>) -> Line {
    let place = items.len() as u32 - 1;
    let above = bit(place) - 1;
    Line {
        kind,
        margin: 0,
        place,
        above,
        below: 0,
        items,
    }
}

/// The set of one place; empty for a place that no set can hold.
fn bit(place: u32) -> u32 {
    1_u32.checked_shl(place).unwrap_or(0)
}

fn asked(line: &mut Line) -> &mut Item {
    &mut line.items[line.place as usize]
}

fn ask(line: &mut Line, place: u32) {
    line.place = place;
    line.above &= !bit(place);
    line.below &= !bit(place);
}

/// Sets the window of the item asked, if the limits allow it.
fn set_window(line: &mut Line, window: u64) {
    let changed = Item {
        window,
        ..*asked(line)
    };
    if changed.within_limits() {
        *asked(line) = changed;
    }
}

/// None, one, all that leaves the length, one more, and the greatest number there is.
fn special_margins(line: &Line) -> [u32; 5] {
    let Item { length, window, .. } = line.items[line.place as usize];
    let most = (window - length) as u32;
    [0, 1, most, most + 1, u32::MAX]
}

fn response(line: &Line) -> Option<u64> {
    line.test().response(&line.question())
}

/// The response of the item at `place` to those who mind no fault.
fn careless_response(line: &Line, place: u32) -> Option<u64> {
    let found = |set| {
        places(set)
            .iter()
            .filter_map(|&p| line.items.get(p).copied())
            .collect()
    };
    let case = Case {
        item: line.items[place as usize],
        above: found(line.above),
        below: found(line.below),
    };
    match line.kind {
        Kind::Board => case.board_response(),
        Kind::Bus => case.bus_response(),
    }
}
