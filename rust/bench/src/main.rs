//! Times the proved library against Rust in one run, and prints tables of ratios; it stops where answers differ.

mod book;
mod books;
mod branch;
mod calls;
mod certificate;
mod copied;
mod damage;
mod growth;
mod judge;
mod judging;
mod lanes;
mod plain;
mod reader;
mod rows;
mod search;
mod set_by_set;
mod sheet;
mod surpluses;
mod timing;
mod values;
mod weighing;
mod worst;

#[cfg(test)]
mod alike;

/// The tables, by the names that pick some of them.
const TABLES: [(&str, fn()); 7] = [
    ("values", values::table),
    ("worst", worst::table),
    ("accepted", judging::accepted_table),
    ("standing", judging::standing_table),
    ("refused", judging::refused_table),
    ("bids", growth::bids_table),
    ("winners", growth::winners_table),
];

/// Prints the tables that the arguments name, or all.
fn main() {
    let picked: Vec<String> = std::env::args().skip(1).collect();
    let known = |name: &String| TABLES.iter().any(|(table, _)| table == name);
    if let Some(other) = picked.iter().find(|name| !known(name)) {
        eprintln!("bench: there is no table '{other}', but {}", TABLES.map(|(name, _)| name).join(", "));
        std::process::exit(2);
    }
    for (name, table) in TABLES {
        if picked.is_empty() || picked.iter().any(|other| other == name) {
            table();
            println!();
        }
    }
}
