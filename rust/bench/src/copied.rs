//! Our search, and v and σ of all sets by its values, put into Rust line by line, with its bounds checks. Each file of copied/ is the code
//! of the file of that name in crates/winners/src: the same structs and loops, tests in the same order, the same arguments. numbers.rs is
//! of crates/numbers, and what stands here is of table.rt. The book is that of book.rs, as for all that is measured in Rust.

mod client_sets;
mod full;
mod kept;
mod lanes;
mod lists;
mod numbers;
mod pass;
mod places;
mod row;
mod rows;
mod taken;
mod trims;
mod values;

use crate::book::Book;
use crate::surpluses::Surpluses;
use places::{ALL, SETS};

/// Of a sound book and a list of its clients, or the number of question 16.
fn of_sound(book: &Book, clients: &[u8]) -> Result<Surpluses, u8> {
    if !lists::is_rising(clients, book.clients) {
        return Err(16);
    }
    let values = pass::weigh_all(book, 0);
    let sigma = values::sigma_by(clients, &values);
    Ok(Surpluses { value: values[ALL], sigma })
}

/// The answer that ours gives for all clients of the book, handed out as ours is: by a call.
#[inline(never)]
pub fn surpluses(book: &Book) -> Surpluses {
    let clients = [1, 2, 3, 4, 5, 6];
    of_sound(book, &clients[..book.clients]).unwrap_or(Surpluses { value: 0, sigma: [0; SETS] })
}
