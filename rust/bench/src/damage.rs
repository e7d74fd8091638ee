//! Damaged calls: an accepted one with one thing wrong, and the number it must be refused with.

use crate::calls::Call;

/// What is wrong, the number it is refused with, and the call.
pub type Damaged = (&'static str, u32, Vec<u8>);

/// The call with its bytes changed.
fn bytes(call: &Call, change: impl Fn(&mut Vec<u8>)) -> Vec<u8> {
    let mut input = call.input();
    change(&mut input);
    input
}

/// The call with its book or sheet changed.
fn fields(call: &Call, change: impl Fn(&mut Call)) -> Vec<u8> {
    let mut call = call.clone();
    change(&mut call);
    call.input()
}

fn of_book(call: &Call) -> Vec<Damaged> {
    let length = call.book.length();
    let amount_of_last = |call: &mut Call, amount| call.book.bids[47].amount = amount;
    vec![
        ("version 2", 1, bytes(call, |input| input[0] = 2)),
        ("the book's length one too large", 2, bytes(call, |input| input[2] += 1)),
        ("the book's last byte missing", 2, bytes(call, |input| input.truncate(length - 1))),
        ("a supply of 201", 3, fields(call, |call| call.book.supply[0] = 201)),
        ("the last bid's amount 0", 4, fields(call, |call| amount_of_last(call, 0))),
        ("a ninth bid of a client", 4, fields(call, |call| call.book.bids[47].client = call.book.bids[47].client % 6 + 1)),
        ("the last bid below its reserves", 5, fields(call, |call| {
            call.book.reserve[0] = 1;
            amount_of_last(call, 1);
            call.book.bids[47].hours[0] = 2;
        })),
    ]
}

fn of_form(call: &Call) -> Vec<Damaged> {
    let at = call.book.length();
    vec![
        ("w of 7", 6, bytes(call, |input| input[at + 3] = 7)),
        ("the sheet's last byte missing", 6, bytes(call, |input| input.truncate(input.len() - 1))),
        ("q of 0", 7, fields(call, |call| call.sheet.q = 0)),
        ("two winners in the wrong order", 8, fields(call, |call| {
            let [first, second, ..] = &mut call.sheet.winners[..] else { return };
            std::mem::swap(&mut first.bid, &mut second.bid);
        })),
        ("the last winner left out", 9, fields(call, |call| {
            call.sheet.winners.pop();
            call.sheet.sets.truncate(1 << call.sheet.winners.len());
        })),
    ]
}

fn of_figures(call: &Call) -> Vec<Damaged> {
    vec![
        ("a discount above the amount", 10, fields(call, |call| {
            let winner = &mut call.sheet.winners[0];
            winner.x = call.sheet.q * call.book.bids[winner.bid - 1].amount + 1;
        })),
        ("a discount one too large", 11, fields(call, |call| call.sheet.winners[0].x += 1)),
        ("a Y one too small", 12, fields(call, |call| {
            call.sheet.sets.iter_mut().filter(|set| 0 < set.y).take(1).for_each(|set| set.y -= 1);
        })),
        ("a Z one too large", 13, fields(call, |call| call.sheet.winners[0].z += 1)),
        ("G one too large", 14, fields(call, |call| call.sheet.g += 1)),
        ("R and T where neither may be", 15, fields(call, |call| {
            call.sheet.winners[0].r += 1;
            call.sheet.winners[0].t += 1;
        })),
    ]
}

/// One call for each damage, by the number of its refusal.
pub fn damaged(call: &Call) -> Vec<Damaged> {
    [of_book(call), of_form(call), of_figures(call)].concat()
}
