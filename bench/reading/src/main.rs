//! Measures the judging of case files: the library's reader beside one in
//! plain Rust that makes the same checks and also builds its tables.

use std::hint::black_box;

use inputs::graphs::text_of;
use measure::clock::median_seconds;
use measure::graphs::{Example, examples};
use measure::readers::{Measured, Text, print};
use plain::reader;
use reference::case::{MOST_EDGES, MOST_WORKERS};

fn main() {
    print("file", &files(), |text| {
        let refusal = reader::read(text).err().unwrap_or(0);
        let (library, plain) = times(text, refusal);
        Measured {
            refusal,
            library,
            plain,
        }
    });
}

/// An accepted file of each shape with the most edges, and one that is refused
/// at its last byte.
fn files() -> Vec<Text> {
    let of_most = |example: &Example| {
        example.case.workers == MOST_WORKERS && example.case.edges.len() == MOST_EDGES
    };
    let file = |example: Example| Text {
        name: example.name,
        text: text_of(&example.case),
    };
    let mut files: Vec<Text> = examples().into_iter().filter(of_most).map(file).collect();
    // Those of one shape differ in their marks alone.
    files.dedup_by_key(|file| file.name);
    let first = &files[0].text;
    let torn = first[..first.len() - 1].to_vec();
    files.push(Text {
        name: "the first one, torn at its end",
        text: torn,
    });
    files
}

fn plain_way(text: &[u8]) -> impl FnMut() {
    move || {
        black_box(reader::read(black_box(text))).ok();
    }
}

/// Microseconds of both readers, once they have agreed on the file.
#[cfg(library)]
fn times(text: &[u8], refusal: u32) -> (Option<f64>, f64) {
    assert_eq!(judge_wrapper::judge(text), refusal);
    let mut library = || {
        black_box(judge_wrapper::judge(black_box(text)));
    };
    let [library, plain] = median_seconds([&mut library, &mut plain_way(text)]);
    (Some(library * 1e6), plain * 1e6)
}

#[cfg(not(library))]
fn times(text: &[u8], _refusal: u32) -> (Option<f64>, f64) {
    let [plain] = median_seconds([&mut plain_way(text)]);
    (None, plain * 1e6)
}
