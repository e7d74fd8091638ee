//! Every generated sheet must be accepted.

use generate::Rng;
use generate::{acceptable_sheet, dressed, random_book, winning_combinations, write};
use reference::{book_refusal, judge, price_list, Book, Sheet, Weights};

/// A random book that is sound, one of its winning combinations, and the sheet for it.
fn example(rng: &mut Rng, book: Book) -> (Book, Weights, Sheet) {
    let winners = rng.pick(&winning_combinations(&book)).clone();
    let weights = Weights::of(&book, &winners);
    let sheet = acceptable_sheet(rng, &weights, &winners);
    (book, weights, sheet)
}

#[test]
fn books_are_sound_and_sheets_are_accepted() {
    let mut rng = Rng::new(1);
    let mut by_w = [0; 7];
    // Sheets with q above 1, s above 1, Y and U on a set of several but not all winners, R, T and
    // Z above 0, G below 0.
    let mut uses = [0; 8];
    let mut largest_q = 0;
    let mut largest_s = 0;
    for _ in 0..6_000 {
        let book = random_book(&mut rng);
        assert_eq!(book_refusal(&write::book(&book)), 0, "{book:?}");
        assert_eq!(Book::read(&write::book(&book)).as_ref(), Some(&book));
        let (book, weights, sheet) = example(&mut rng, book);
        assert_eq!(Sheet::read(&write::sheet(&sheet)).as_ref(), Some(&sheet));
        for sheet in [dressed(&mut rng, &weights, &sheet), sheet.clone()] {
            let input = write::input(&book, &sheet);
            let answer = judge(&input);
            assert_eq!(answer.number, 0, "{book:?} {sheet:?} {weights:?}");
            assert_eq!(usize::from(answer.w), sheet.w());
            assert_eq!(i128::from(answer.q), sheet.q);
            assert!(price_list(&input).starts_with("accepted "));
        }
        by_w[sheet.w()] += 1;
        let all = sheet.sets.len() - 1;
        let inner = |k: usize| k.count_ones() > 1 && k != all;
        uses[0] += usize::from(sheet.q > 1);
        uses[1] += usize::from(sheet.s > 1);
        uses[2] += usize::from((1..all).any(|k| inner(k) && sheet.sets[k].y > 0));
        uses[3] += usize::from((1..all).any(|k| inner(k) && sheet.sets[k].u > 0));
        uses[4] += usize::from(sheet.winners.iter().any(|winner| winner.r > 0));
        uses[5] += usize::from(sheet.winners.iter().any(|winner| winner.t > 0));
        uses[6] += usize::from(sheet.winners.iter().any(|winner| winner.z > 0));
        uses[7] += usize::from(sheet.g < 0);
        largest_q = largest_q.max(sheet.q);
        largest_s = largest_s.max(sheet.s);
    }
    println!("sheets by w: {by_w:?}; by use: {uses:?}; largest q {largest_q}, s {largest_s}");
    assert!(by_w.iter().all(|&count| count >= 50), "{by_w:?}");
}
