//! Which faults have been noticed, and by which input.

use crate::copies::{Copied, ALL, COPIES};
use crate::table::{faults, Fault, Group};
use compare::{Examiner, Example, Input, Memory};
use reference::answer::{answer, greatest_by, outcome, text};
use reference::Answer;

struct Try {
    group: &'static Group,
    fault: &'static Fault,
    copy: &'static Copied,
    /// The input that told the copy from the reference: its number and how it was made.
    noticed: Option<(u64, &'static str)>,
}

pub struct Found {
    tries: Vec<Try>,
    memory: Memory,
    inputs: u64,
}

impl Found {
    pub fn none() -> Found {
        let of_table = faults(ALL).into_iter().zip(COPIES);
        let each = of_table.map(|((group, fault), copy)| Try { group, fault, copy, noticed: None });
        Found { tries: each.collect(), memory: Memory::default(), inputs: 0 }
    }

    /// Puts an input to all copies that are not found out yet.
    fn put(&mut self, way: &'static str, differs: impl Fn(&Copied, &mut Memory) -> bool) {
        self.inputs += 1;
        for one in self.tries.iter_mut().filter(|one| one.noticed.is_none()) {
            if differs(one.copy, &mut self.memory) {
                one.noticed = Some((self.inputs, way));
            }
        }
    }

    pub fn as_it_should(&self) -> bool {
        self.tries.iter().all(Try::as_it_should)
    }

    /// How many were noticed, and each that was not as it should; each of all if asked for.
    pub fn report(&self, each: bool) -> String {
        let shown = self.tries.iter().filter(|one| each || !one.as_it_should());
        let lines: String = shown.map(Try::line).collect();
        let noticed = self.tries.iter().filter(|one| one.noticed.is_some()).count();
        let last = self.tries.iter().filter_map(|one| one.noticed).max().map_or(0, |input| input.0);
        let same = self.tries.iter().filter(|one| one.fault.same.is_some()).count();
        let faults = self.tries.len() - same;
        let inputs = self.inputs;
        let said = format!("{noticed} of {faults} faults noticed by {inputs} inputs, the last by input {last}");
        format!("{lines}{said}; {same} harmless changes beside them\n")
    }
}

impl Try {
    fn as_it_should(&self) -> bool {
        self.noticed.is_some() == self.fault.same.is_none()
    }

    fn line(&self) -> String {
        let verdict = if self.as_it_should() { "ok" } else { "WRONG" };
        let how = match (self.noticed, self.fault.same) {
            (Some((input, way)), _) => format!("noticed by input {input}, {way}"),
            (None, Some(why)) => format!("not noticed: {why}"),
            (None, None) => "not noticed".to_string(),
        };
        let (topic, new) = (self.group.topic, self.fault.new.replace('\n', " "));
        format!("{verdict}: {topic}: `{new}`: {how}\n")
    }
}

impl Examiner for Found {
    fn share(&mut self, example: &Example) {
        self.memory.share(&example.book, &example.values);
    }

    fn call(&mut self, input: &Input) -> Result<u8, String> {
        let outcome = outcome(&input.bytes, |book| self.memory.values(book));
        let right: (Answer, String) = (answer(&outcome), text(&outcome));
        self.put(input.way, |copy, memory| (copy.call)(&input.bytes, memory) != right);
        Ok(right.0.number)
    }

    fn call_and_print(&mut self, input: &Input) -> Result<u8, String> {
        self.call(input)
    }

    fn value(&mut self, way: &'static str, book: &[u8], discard: u8) -> Result<(u8, u64), String> {
        let right = greatest_by(book, discard, |book| self.memory.values(book));
        self.put(way, |copy, memory| (copy.value)(book, discard, memory) != right);
        Ok(right)
    }
}
