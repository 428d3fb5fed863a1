//! Measures the checking of charts: the library's reader beside one in plain
//! Rust that makes the same checks.

use std::hint::black_box;

use measure::charts::examples;
use measure::clock::median_seconds;
use measure::readers::{Measured, print};
use plain::charts;

fn main() {
    print("chart", &examples(), |text| {
        let checked = charts::check(text);
        let (library, plain) = times(text, checked);
        Measured {
            refusal: checked.0,
            library,
            plain,
        }
    });
}

fn plain_way(text: &[u8]) -> impl FnMut() {
    move || {
        black_box(charts::check(black_box(text)));
    }
}

/// Microseconds of both readers, once they have agreed on the chart.
#[cfg(library)]
fn times(text: &[u8], checked: (u32, u32, u32)) -> (Option<f64>, f64) {
    let charted = rezkundo::check_chart(text);
    let by_library = (charted.refusal, charted.mode, charted.combination);
    assert_eq!(by_library, checked);
    let mut library = || {
        black_box(rezkundo::check_chart(black_box(text)));
    };
    let [library, plain] = median_seconds([&mut library, &mut plain_way(text)]);
    (Some(library * 1e6), plain * 1e6)
}

#[cfg(not(library))]
fn times(text: &[u8], _checked: (u32, u32, u32)) -> (Option<f64>, f64) {
    let [plain] = median_seconds([&mut plain_way(text)]);
    (None, plain * 1e6)
}
