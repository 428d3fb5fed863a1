//! Comparisons on claims: fixed texts, and those that a seed chooses.

use inputs::claim_changes::{
    ODD_BYTES, at_edge, changed, every_odd_token_at_edge, every_token_at_edge, every_token_change,
};
use inputs::claim_rows::{READINGS, rows};
use inputs::claims::{RIGHT, greatest_claim, random_claim};
use inputs::damage::every_change_by;
use inputs::rng::Rng;

use crate::compare::{Asked, Comparison, Mismatch};

/// All that no seed chooses.
pub fn compare_all(comparison: &mut Comparison) -> Result<(), Mismatch> {
    for (text, _) in (1..=READINGS).flat_map(rows) {
        comparison.claim(&text, Asked::Every)?;
    }
    comparison.claim(greatest_claim().as_bytes(), Asked::Every)?;
    for text in RIGHT.map(str::as_bytes) {
        comparison.claim(text, Asked::Every)?;
        compare_each(comparison, every_change_by(text, ODD_BYTES))?;
        compare_each(comparison, every_token_change(text))?;
        compare_each(comparison, every_token_at_edge(text))?;
        compare_each(comparison, every_odd_token_at_edge(text))?;
    }
    Ok(())
}

fn compare_each(
    comparison: &mut Comparison,
    texts: impl IntoIterator<Item = Vec<u8>>,
) -> Result<(), Mismatch> {
    for text in texts {
        comparison.claim(&text, Asked::Few)?;
    }
    Ok(())
}

/// One round: a random claim, changed copies, and some of them at the edge of
/// the longest text.
pub fn compare_round(comparison: &mut Comparison, rng: &mut Rng) -> Result<(), Mismatch> {
    let (_, text) = random_claim(rng);
    comparison.claim(&text, Asked::Few)?;
    for _ in 0..6 {
        let text = changed(rng, &text);
        comparison.claim(&text, Asked::Few)?;
        if rng.chance(1, 12) {
            comparison.claim(&at_edge(rng, &text), Asked::Few)?;
        }
    }
    if rng.chance(1, 4) {
        comparison.claim(&at_edge(rng, &text), Asked::Few)?;
    }
    Ok(())
}
