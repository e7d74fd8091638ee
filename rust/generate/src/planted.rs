//! Random sound books with planted winners: a few clients take up the whole supply, and the other
//! bids ask for the hours of some of them at a little less. Each such bid bounds one set of
//! winners, so that the discounts are bounded by many sets that overlap.

use crate::Rng;
use reference::{Bid, Book};

/// No client has more than `most_challenges` such bids, and none more than eight bids in all.
pub fn planted_book(rng: &mut Rng, most_challenges: usize) -> Book {
    let k = rng.index(1, 4);
    let n = *rng.pick(&[2, 3, 4, 5, 6, 6]);
    let all_win = rng.chance(30);
    let winners = if all_win {
        n
    } else {
        rng.index((n / 2).max(1), n)
    };
    let most_amount = *rng.pick(&[6, 30, 100, 1_000, 150_000]);

    let planted: Vec<Bid> = (1..=winners)
        .map(|client| Bid {
            client,
            hours: some_hours(rng, k),
            amount: planted_amount(rng, most_amount),
        })
        .collect();
    let mut book = Book {
        supply: hours_of(&planted, k),
        reserve: vec![0; k],
        status: vec![0; n],
        bids: planted.clone(),
    };
    for client in 1..=n {
        let room = if client <= winners { 7 } else { 8 };
        if client > winners || all_win || rng.chance(40) {
            for _ in 0..rng.index(0, room.min(most_challenges)) {
                book.bids.push(challenge(rng, &planted, client));
            }
        }
    }
    if rng.chance(30) {
        set_reserves(rng, &mut book);
    }
    if rng.chance(50) {
        rng.shuffle(&mut book.bids);
    }
    book
}

/// Six planted winners, and one bid besides: a winner outside the set, which has one to five of
/// them, asks for the hours of the set beside its own, at a little less than the set's amounts and
/// its own. So σ of this set stands out from what σ of the others would let through.
pub fn challenged_book(rng: &mut Rng, set: usize) -> Book {
    let k = rng.index(1, 4);
    let most_amount = *rng.pick(&[6, 30, 1_000, 150_000]);
    let mut bids: Vec<Bid> = (1..=6)
        .map(|client| Bid {
            client,
            hours: some_hours(rng, k),
            amount: planted_amount(rng, most_amount),
        })
        .collect();
    let supply = hours_of(&bids, k);
    let outside: Vec<usize> = (0..6).filter(|place| (set >> place) & 1 == 0).collect();
    let challenger = *rng.pick(&outside);
    let beaten: Vec<Bid> = (0..6)
        .filter(|place| (set >> place) & 1 == 1 || *place == challenger)
        .map(|place| bids[place].clone())
        .collect();
    let total: i128 = beaten.iter().map(|bid| bid.amount).sum();
    bids.push(Bid {
        client: challenger + 1,
        hours: hours_of(&beaten, k),
        amount: (total - rng.range(0, total / 3)).max(1),
    });
    Book {
        supply,
        reserve: vec![0; k],
        status: vec![0; 6],
        bids,
    }
}

/// The hours of these bids together, by kind.
fn hours_of(bids: &[Bid], k: usize) -> Vec<i128> {
    (0..k)
        .map(|kind| bids.iter().map(|bid| bid.hours[kind]).sum())
        .collect()
}

fn some_hours(rng: &mut Rng, k: usize) -> Vec<i128> {
    let mut hours: Vec<i128> = (0..k).map(|_| rng.range(0, 2)).collect();
    if hours.iter().all(|&h| h == 0) {
        hours[rng.index(0, k - 1)] = 1;
    }
    hours
}

/// Amounts of like size, with a small one now and then.
fn planted_amount(rng: &mut Rng, most: i128) -> i128 {
    if rng.chance(20) {
        rng.range(1, 1 + most / 6)
    } else {
        rng.range(1 + most / 2, most)
    }
}

/// A bid for the hours of a random set of planted bids, with the client's own among them if it has
/// one, that offers their amounts less a part.
fn challenge(rng: &mut Rng, planted: &[Bid], client: usize) -> Bid {
    let percent = *rng.pick(&[30, 50, 80, 100]);
    let mut beaten: Vec<&Bid> = planted
        .iter()
        .filter(|bid| bid.client == client || rng.chance(percent))
        .collect();
    if beaten.is_empty() {
        beaten.push(rng.pick(planted));
    }
    let kinds = 0..planted[0].hours.len();
    let hours = kinds
        .map(|kind| beaten.iter().map(|bid| bid.hours[kind]).sum())
        .collect();
    let total: i128 = beaten.iter().map(|bid| bid.amount).sum();
    let amount = (total - rng.range(0, total / 2)).max(1);
    Bid {
        client,
        hours,
        amount,
    }
}

/// Reserves that some bid meets exactly, or almost.
pub fn set_reserves(rng: &mut Rng, book: &mut Book) {
    for _ in 0..20 {
        let reserve: Vec<i128> = book.supply.iter().map(|_| rng.range(0, 10_000)).collect();
        let scale = rng.range(1, 10_000);
        let lower: Vec<i128> = reserve.iter().map(|r| r * scale / 10_000).collect();
        for reserve in [reserve, lower] {
            let with_these = Book {
                reserve,
                ..book.clone()
            };
            if (with_these.bids.iter()).all(|bid| bid.amount >= with_these.reserves(bid)) {
                *book = with_these;
            }
        }
    }
}
