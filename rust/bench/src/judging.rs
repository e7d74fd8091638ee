//! The tables of judging: accepted sheets over each kind of book and by the number of winners, and damaged calls that are refused.

use crate::books::{KINDS, MANY, TIGHT};
use crate::calls::Call;
use crate::damage::{damaged, Damaged};
use crate::judge::{judge_set_by_set, judge_sheet};
use crate::timing::{work, Rounds, Work};
use certifier::Prices;
use std::hint::black_box;

/// Judges: ours, the same in Rust, and in Rust with the old search.
pub type Judge = fn(&[u8]) -> Prices;
pub const JUDGES: [Judge; 3] = [certifier::judge_sheet, judge_sheet, judge_set_by_set];

/// The first of the questions whose answer hangs on the search.
const SEARCHED: u32 = 9;

/// Supplies by which, over tight books, one to six clients win.
const SUPPLIES: [i128; 6] = [15, 25, 40, 50, 60, 100];

/// Judging all the inputs.
pub fn judged(judge: Judge, inputs: &[Vec<u8>]) -> Work<'_> {
    work(move || inputs.iter().map(|input| judge(black_box(input)).prices[0]).sum::<u64>())
}

/// All must answer alike, with this number and so many winners.
pub fn assert_alike(what: &str, inputs: &[Vec<u8>], number: u32, winners: usize) {
    for input in inputs {
        let ours = certifier::judge_sheet(input);
        for judge in JUDGES {
            assert_eq!(ours, judge(input), "answers differ: {what}");
        }
        assert_eq!((ours.number, ours.w as usize), (number, winners), "another answer than expected: {what}");
    }
}

/// Our time for judging calls over that of the same in Rust, and over that with the old search.
fn ratios(inputs: &[Vec<u8>]) -> [f64; 2] {
    let rounds = Rounds::of(&JUDGES.map(|judge| judged(judge, inputs)));
    [1, 2].map(|other| rounds.ratio(0, other))
}

fn inputs(calls: &[Call]) -> Vec<Vec<u8>> {
    calls.iter().map(Call::input).collect()
}

pub fn accepted_table() {
    println!("Judging a sheet that is accepted, over a full book: our time over that of the same judging in Rust, and over that of");
    println!("judging in Rust with the old search.");
    println!();
    println!("{:22}{:>10}{:>10}{:>10}", "kind of book", "winners", "same", "old");
    for kind in KINDS {
        let call = Call::of_kind(&kind);
        let winners = call.sheet.winners.len();
        let inputs = inputs(&call.forms(MANY));
        assert_alike(kind.name, &inputs, 0, winners);
        let [same, old] = ratios(&inputs);
        println!("{:22}{winners:>10}{same:>10.2}{old:>10.2}", kind.name);
    }
}

pub fn standing_table() {
    println!("The same where six clients stand and some of them win, over full books with the supply by which so many do.");
    println!();
    println!("{:10}{:>10}{:>10}{:>10}", "winners", "supply", "same", "old");
    for (place, supply) in SUPPLIES.into_iter().enumerate() {
        let winners = place + 1;
        let inputs = inputs(&Call::of_supply(supply, winners));
        assert_alike("winners by supply", &inputs, 0, winners);
        let [same, old] = ratios(&inputs);
        println!("{winners:<10}{supply:>10}{same:>10.2}{old:>10.2}");
    }
}

pub fn refused_table() {
    println!("Reading and refusing a damaged call, a six-winner sheet over a full tight book: our time over that in Rust, and over");
    println!("that with the old search where the answer hangs on it.");
    println!();
    println!("{:44}{:>10}{:>10}{:>10}", "damage", "refused", "same", "old");
    let forms: Vec<Vec<Damaged>> = Call::of_kind(&TIGHT).forms(MANY).iter().map(damaged).collect();
    for (i, (what, number, _)) in forms[0].iter().enumerate() {
        let inputs: Vec<Vec<u8>> = forms.iter().map(|form| form[i].2.clone()).collect();
        assert_alike(what, &inputs, *number, 0);
        let [same, old] = ratios(&inputs);
        let old = if *number < SEARCHED { String::new() } else { format!("{old:>10.2}") };
        println!("{what:44}{number:>10}{same:>10.2}{old}");
    }
}
