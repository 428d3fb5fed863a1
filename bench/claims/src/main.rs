//! Measures the reading of claims: the library's reader beside one in plain
//! Rust that makes the same checks and fills the same tables.

use std::hint::black_box;

use measure::claims::examples;
use measure::clock::median_seconds;
use measure::readers::{Measured, print};
use plain::claims::{self, Tables};

fn main() {
    print("claim", &examples(), |text| {
        let refusal = claims::read(text, &mut Tables::empty()).err().unwrap_or(0);
        let (library, plain) = times(text, refusal);
        Measured {
            refusal,
            library,
            plain,
        }
    });
}

/// The tables are the caller's, as the library's cells are.
fn plain_way(text: &[u8]) -> impl FnMut() {
    let mut tables = Tables::empty();
    move || {
        black_box(claims::read(black_box(text), &mut tables)).ok();
        black_box(&tables);
    }
}

/// Microseconds of both readers, once they have agreed on the claim.
#[cfg(library)]
fn times(text: &[u8], refusal: u32) -> (Option<f64>, f64) {
    assert_eq!(judge_wrapper::judge_claim(text), refusal);
    let mut library = || {
        black_box(judge_wrapper::judge_claim(black_box(text)));
    };
    let [library, plain] = median_seconds([&mut library, &mut plain_way(text)]);
    (Some(library * 1e6), plain * 1e6)
}

#[cfg(not(library))]
fn times(text: &[u8], _refusal: u32) -> (Option<f64>, f64) {
    let [plain] = median_seconds([&mut plain_way(text)]);
    (None, plain * 1e6)
}
