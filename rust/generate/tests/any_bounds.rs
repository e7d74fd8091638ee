//! Sheets for made-up σ and ρ, which bind in more ways than those of a book.

use generate::{acceptable_sheet, Rng};
use reference::questions::*;
use reference::Weights;

#[test]
fn sheets_balance_for_any_bounds() {
    let mut rng = Rng::new(21);
    let mut largest_q = 0;
    let mut largest_s = 0;
    for _ in 0..8_000 {
        let w = rng.index(1, 6);
        let most = *rng.pick(&[1, 3, 30, 1_000_000]);
        let mut weights = Weights {
            v: 0,
            sigma: (0..1_usize << w)
                .map(|set| rng.range(0, most * i128::from(set.count_ones())))
                .collect(),
            rho: (0..w).map(|_| rng.range(0, 2 * most)).collect(),
        };
        // Often bounds of equal size on sets of equal size, so that many meet in one point.
        if rng.chance(50) {
            let by_size: Vec<i128> = (0..=6)
                .map(|size| rng.range(0, most * (size + 1)))
                .collect();
            for (set, sigma) in weights.sigma.iter_mut().enumerate() {
                if rng.chance(80) {
                    *sigma = by_size[set.count_ones() as usize];
                }
            }
        }
        weights.sigma[0] = 0;
        let winners: Vec<usize> = (1..=w).collect();
        let sheet = acceptable_sheet(&mut rng, &weights, &winners);
        assert!(question_7(&sheet), "{weights:?} {sheet:?}");
        assert!(question_10(&sheet, &weights), "{weights:?} {sheet:?}");
        assert!(question_11(&sheet, &weights), "{weights:?} {sheet:?}");
        assert!(question_12(&sheet), "{weights:?} {sheet:?}");
        assert!(question_13(&sheet, &weights), "{weights:?} {sheet:?}");
        assert!(question_14(&sheet, &weights), "{weights:?} {sheet:?}");
        assert!(question_15(&sheet, &weights), "{weights:?} {sheet:?}");
        largest_q = largest_q.max(sheet.q);
        largest_s = largest_s.max(sheet.s);
    }
    println!("largest q {largest_q}, s {largest_s}");
    // What is said in `sheets` of any order, and on docs/SHEETS.md.
    assert!(largest_q <= 9 * 150 && largest_s <= 9);
}
