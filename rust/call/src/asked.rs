//! The words of questions 1 to 15, as docs/FORMAT.md has them.

/// Question n is at place n - 1.
const QUESTIONS: [&str; 15] = [
    "Are there three bytes or more, and is the first a 1?",
    "Are there at least as many bytes as the length says; do K, n and m stand inside those bytes and in their \
     ranges; is the length the formula's?",
    "Are all supplies, reserves and statuses in range?",
    "Does each bid, of a withdrawn client too, name a client from 1 to n, ask for some hour and offer \
     1 to 1,000,000; and has every client eight bids or fewer?",
    "Does each amount reach the reserves of its hours?",
    "Does what follows the book begin with version 1, a length and a w from 0 to n; and is the \
     length the formula's, and exactly that of what follows?",
    "Are q, s, X, Z, R, T, G, Y and U in their ranges?",
    "Are the bid numbers 1 to m, by strictly rising client, and the bids a combination?",
    "Is their value v?",
    "Is each X at most q ρ(j)?",
    "For each non-empty set L, is the sum of its X at most q σ(L)?",
    "Is, for each winner, Z and the Y of all sets that hold it together at least s?",
    "Is q (sum of Y σ(L) over the sets + sum of Z ρ(j) over the winners) equal to s (sum of X)?",
    "Is, for each winner, q σ(j) - X equal to G + the U of all sets that hold it + R - T?",
    "Is U zero except where a set's X sum to q σ(L); R except where X is q ρ(j); T except where X is 0?",
];

/// The words of a question from 1 to 15.
pub fn question(number: u32) -> Option<&'static str> {
    let place = usize::try_from(number).ok()?.checked_sub(1)?;
    QUESTIONS.get(place).copied()
}
