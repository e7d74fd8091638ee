//! How often each number was reached, and how much was compared.

use crate::shapes::Shapes;
use std::collections::BTreeMap;
use std::fmt;

/// Counts of the numbers 0 to 16, in all and for each way of changing an input.
#[derive(Clone, Debug, Default)]
pub struct Tally {
    pub total: [u64; 17],
    pub by_way: BTreeMap<&'static str, [u64; 17]>,
}

/// What was compared. A value is an answer of greatest value, a call one of judging and its text.
#[derive(Clone, Debug, Default)]
pub struct Counts {
    /// Calls and values.
    pub tally: Tally,
    /// Calls that went through the program too.
    pub printed: Tally,
    pub calls: u64,
    pub values: u64,
    pub accepted: Shapes,
    /// Calls over sound books of 48 bids, and values that such books have.
    pub full_calls: u64,
    pub full_values: u64,
}

impl Tally {
    /// Notes one answer. Numbers above 16 are none that an answer may have.
    pub fn note(&mut self, way: &'static str, number: u8) {
        let place = usize::from(number);
        assert!(place <= 16, "{way}: number {number}");
        self.total[place] += 1;
        self.by_way.entry(way).or_default()[place] += 1;
    }

    /// How many answers were noted.
    pub fn count(&self) -> u64 {
        self.total.iter().sum()
    }

    /// The numbers from 0 to `last` that were not reached.
    pub fn missing(&self, last: usize) -> Vec<usize> {
        (0..=last)
            .filter(|&number| self.total[number] == 0)
            .collect()
    }

    /// A table with a line for each way.
    pub fn by_way(&self) -> String {
        let line = |way: &str, counts: &[u64; 17]| {
            let fields: String = counts.iter().map(|count| format!("{count:8}")).collect();
            format!("{way:32}{fields}\n")
        };
        let numbers: [u64; 17] = std::array::from_fn(|number| number as u64);
        let ways = self.by_way.iter().map(|(way, counts)| line(way, counts));
        line("number", &numbers) + &ways.collect::<String>()
    }
}

/// A short table: the numbers, and below each how often it was reached.
impl fmt::Display for Tally {
    fn fmt(&self, out: &mut fmt::Formatter) -> fmt::Result {
        for part in [0..9, 9..17] {
            let numbers: String = part.clone().map(|number| format!("{number:9}")).collect();
            let counts: String = part
                .map(|number| format!("{:9}", self.total[number]))
                .collect();
            write!(out, "number{numbers}\ntimes {counts}\n")?;
        }
        Ok(())
    }
}

impl fmt::Display for Counts {
    fn fmt(&self, out: &mut fmt::Formatter) -> fmt::Result {
        write!(out, "{}", self.tally)?;
        let alike = self.calls + self.values;
        writeln!(
            out,
            "{alike} inputs answered alike: {} calls, {} values",
            self.calls, self.values
        )?;
        writeln!(out, "{}", self.accepted)?;
        let (calls, values) = (self.full_calls, self.full_values);
        writeln!(out, "over full books: {calls} calls, {values} values")?;
        writeln!(out, "through the program: {} calls", self.printed.count())
    }
}
