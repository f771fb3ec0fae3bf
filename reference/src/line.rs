//! Question lines and their answers, as `docs/crosscheck.md` has them.

use std::fmt;

use crate::definition::{Board, Bus, Margin, TimingTest};
use crate::question::{self, Item, Question};

#[derive(Clone, Copy, Debug, PartialEq, Eq)]
pub enum Kind {
    Board,
    Bus,
}

#[derive(Clone, Debug)]
pub struct Line {
    pub kind: Kind,
    pub margin: u32,
    pub place: u32,
    pub above: u32,
    pub below: u32,
    pub items: Vec<Item>,
}

impl Line {
    /// Reads a line; none if it is not a question.
    pub fn parse(line: &str) -> Option<Line> {
        let (kind, numbers) = line.split_once(' ')?;
        let kind = match kind {
            "board" => Kind::Board,
            "bus" => Kind::Bus,
            _ => return None,
        };
        let numbers: Vec<u32> = numbers
            .split(' ')
            .map(|word| word.parse().ok())
            .collect::<Option<_>>()?;
        let [margin, place, above, below, ref items @ ..] = numbers[..] else {
            return None;
        };
        Some(Line {
            kind,
            margin,
            place,
            above,
            below,
            items: question::items(items)?,
        })
    }

    pub fn test(&self) -> &'static dyn TimingTest {
        match self.kind {
            Kind::Board => &Board,
            Kind::Bus => &Bus,
        }
    }

    pub fn question(&self) -> Question {
        Question {
            table: self.items.clone(),
            place: self.place as usize,
            above: question::places(self.above),
            below: question::places(self.below),
        }
    }

    /// The line that answers this one.
    pub fn answer(&self) -> String {
        if let Some(bad) = self.items.iter().find(|item| !item.within_limits()) {
            return format!("refused 20 {} {} {}", bad.length, bad.period, bad.window);
        }
        let question = self.question();
        let test = self.test();
        let margin = Margin {
            ticks: self.margin.into(),
            test,
        };
        format!(
            "{} {}",
            two_words(test, &question),
            two_words(&margin, &question)
        )
    }
}

/// Whether the item passes, and its response.
fn two_words(test: &dyn TimingTest, question: &Question) -> String {
    let passes = if test.passes(question) { "yes" } else { "no" };
    match test.response(question) {
        Some(response) => format!("{passes} {response}"),
        None => format!("{passes} -"),
    }
}

impl fmt::Display for Line {
    fn fmt(&self, f: &mut fmt::Formatter) -> fmt::Result {
        let kind = match self.kind {
            Kind::Board => "board",
            Kind::Bus => "bus",
        };
        write!(f, "{kind} {} {}", self.margin, self.place)?;
        write!(f, " {} {}", self.above, self.below)?;
        for item in &self.items {
            write!(f, " {} {} {}", item.length, item.period, item.window)?;
        }
        Ok(())
    }
}

#[cfg(test)]
mod tests {
    use super::Line;

    fn answer(line: &str) -> String {
        let parsed = Line::parse(line).unwrap();
        assert_eq!(parsed.to_string(), line);
        parsed.answer()
    }

    #[test]
    fn answers() {
        assert_eq!(answer("board 2 1 1 0 2 5 5 3 20 7"), "yes 5 yes 5");
        assert_eq!(answer("board 3 1 1 0 2 5 5 3 20 7"), "yes 5 no -");
        assert_eq!(answer("bus 0 0 0 0 3 20 6"), "yes 6 yes 6");
        assert_eq!(answer("bus 0 0 0 0"), "no - no -");
        assert_eq!(
            answer("bus 0 7 0 0 3 20 6 5 10 4 0 0 0"),
            "refused 20 5 10 4"
        );
    }

    #[test]
    fn other_lines() {
        for line in [
            "",
            "board",
            "bus 0 0 0",
            "belt 0 0 0 0",
            "bus 0 0 0 0 3 20",
            "bus 0 0 0  0",
        ] {
            assert!(Line::parse(line).is_none());
        }
    }
}
