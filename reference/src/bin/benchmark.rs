//! Asks about every place of a table, many times over, the fast way.

use std::io;

use reference::fast::{Item, Question, all_places};
use reference::question;

/// What came of the questions to one test.
#[derive(Default)]
struct Tally {
    passes: u64,
    sum: u64,
}

impl Tally {
    fn add(&mut self, response: Option<u32>) {
        if let Some(response) = response {
            self.passes += 1;
            self.sum += u64::from(response);
        }
    }
}

fn main() -> io::Result<()> {
    let line = io::read_to_string(io::stdin())?;
    let Some((rounds, table)) = parse(line.trim_end()) else {
        return Err(io::Error::other("the line is not ROUNDS C T W C T W .."));
    };
    let [board, bus] = ask(rounds, &table);
    println!("board {} {}", board.passes, board.sum);
    println!("bus {} {}", bus.passes, bus.sum);
    Ok(())
}

fn parse(line: &str) -> Option<(u32, Vec<Item>)> {
    let numbers: Vec<u32> = line
        .split(' ')
        .map(|word| word.parse().ok())
        .collect::<Option<_>>()?;
    let (&rounds, items) = numbers.split_first()?;
    let table = question::items(items)?
        .iter()
        .map(Item::new)
        .collect::<Option<_>>()?;
    Some((rounds, table))
}

fn ask(rounds: u32, table: &[Item]) -> [Tally; 2] {
    let all = all_places(table.len());
    let [mut board, mut bus] = [Tally::default(), Tally::default()];
    let mut x: u32 = 1;
    for _ in 0..rounds {
        for place in 0..table.len() {
            x = x.wrapping_mul(1_664_525).wrapping_add(1_013_904_223);
            // A place from 32 on is in no set; such a table is improper anyway.
            let others = all & !1_u32.checked_shl(place as u32).unwrap_or(0);
            let question = Question {
                table,
                place,
                above: x & others,
                below: !x & others,
            };
            board.add(question.board_response());
            bus.add(question.bus_response());
        }
    }
    [board, bus]
}
