//! The faults: each a text in a file of the reference, and the text put in its place. The build makes a copy of the reference for each.

// The build reads some of the fields and the program others.
#![allow(dead_code)]

mod balances;
mod beside;
mod book;
mod sheet;

/// Faults of one topic in one file.
pub struct Group {
    pub topic: &'static str,
    pub file: &'static str,
    pub faults: &'static [Fault],
}

pub struct Fault {
    pub old: &'static str,
    pub new: &'static str,
    /// Why no answer changes, where that is so. Such a change must not be noticed.
    pub same: Option<&'static str>,
    /// Whether the gate tries it; the others are tried by hand.
    pub in_gate: bool,
}

/// A fault that the gate tries.
const fn gate(old: &'static str, new: &'static str) -> Fault {
    Fault { old, new, same: None, in_gate: true }
}

/// A fault that is tried by hand.
const fn hand(old: &'static str, new: &'static str) -> Fault {
    Fault { old, new, same: None, in_gate: false }
}

/// A change that changes no answer, tried by hand.
const fn same(old: &'static str, new: &'static str, why: &'static str) -> Fault {
    Fault { old, new, same: Some(why), in_gate: false }
}

/// The same, tried in the gate.
const fn same_in_gate(old: &'static str, new: &'static str, why: &'static str) -> Fault {
    Fault { old, new, same: Some(why), in_gate: true }
}

/// All groups, in the order of the questions.
pub fn groups() -> impl Iterator<Item = &'static Group> {
    [book::GROUPS, sheet::GROUPS, balances::GROUPS, beside::GROUPS].into_iter().flatten()
}

/// All faults, or those of the gate, each with its group. The build and the program number them alike.
pub fn faults(all: bool) -> Vec<(&'static Group, &'static Fault)> {
    let each = groups().flat_map(|group| group.faults.iter().map(move |fault| (group, fault)));
    each.filter(|(_, fault)| all || fault.in_gate).collect()
}
