//! Measures whole runs: from the text of a case to its answer by rounds, by
//! the library and in plain Rust, and to the bare verdict by a nested search.

use std::hint::black_box;

use inputs::graphs::text_of;
use measure::clock::median_seconds;
use measure::graphs::{Example, examples};
use plain::{nested, rounds};
use reference::entries::OUTPUT_BYTES;

#[cfg(library)]
use reference::entries::{Tool, WORK_CELLS};
#[cfg(library)]
use reference::run::Tallies;

fn main() {
    println!("{}", heading());
    for example in examples() {
        println!("{}", row(&example));
    }
}

/// Times in microseconds.
struct Times {
    library: Option<f64>,
    plain: f64,
    nested: f64,
}

fn heading() -> String {
    format!(
        "{:<18}{:>4}{:>8}{:>9}{:>12}{:>11}{:>11}{:>10}{:>11}",
        "graph",
        "A",
        "workers",
        "acts",
        "library/us",
        "plain/us",
        "nested/us",
        "l/plain",
        "l/nested"
    )
}

fn row(example: &Example) -> String {
    let case = &example.case;
    let text = text_of(case);
    let mut output = vec![0; OUTPUT_BYTES];
    let ended = rounds::run(&text, &mut output).expect("the case is in range");
    let times = measure(&text, &output, ended);
    let ratio = |to: f64| {
        times
            .library
            .map_or("-".to_owned(), |time| format!("{:.2}", time / to))
    };
    let library = times
        .library
        .map_or("-".to_owned(), |time| format!("{time:.1}"));
    format!(
        "{:<18}{:>4}{:>8}{:>9}{:>12}{:>11.1}{:>11.1}{:>10}{:>11}",
        example.name,
        case.accepting_count(),
        case.workers,
        ended.acts,
        library,
        times.plain,
        times.nested,
        ratio(times.plain),
        ratio(times.nested),
    )
}

fn plain_way(text: &[u8]) -> impl FnMut() {
    let mut output = vec![0; OUTPUT_BYTES];
    move || {
        black_box(rounds::run(black_box(text), &mut output)).ok();
    }
}

fn nested_way(text: &[u8]) -> impl FnMut() {
    move || {
        black_box(nested::run(black_box(text))).ok();
    }
}

/// `output` and `ended` are what the plain run has given, for comparison.
#[cfg(library)]
fn measure(text: &[u8], output: &[u8], ended: rounds::Ended) -> Times {
    let mut library_output = vec![0; OUTPUT_BYTES];
    let mut work = vec![0; WORK_CELLS];
    let outcome = wrapper::Library.run_rounds(text, &mut library_output, &mut work);
    assert_eq!((outcome.verdict, outcome.acts), (ended.verdict, ended.acts));
    let tallies = Tallies {
        sent: ended.sent,
        delivered: ended.delivered,
        joined: 0,
    };
    assert_eq!(outcome.tallies, tallies);
    assert_eq!(library_output, output);
    let mut library = || {
        black_box(wrapper::Library.run_rounds(black_box(text), &mut library_output, &mut work));
    };
    let (mut plain, mut nested) = (plain_way(text), nested_way(text));
    let [library, plain, nested] = median_seconds([&mut library, &mut plain, &mut nested]);
    Times {
        library: Some(library * 1e6),
        plain: plain * 1e6,
        nested: nested * 1e6,
    }
}

#[cfg(not(library))]
fn measure(text: &[u8], _output: &[u8], _ended: rounds::Ended) -> Times {
    let (mut plain, mut nested) = (plain_way(text), nested_way(text));
    let [plain, nested] = median_seconds([&mut plain, &mut nested]);
    Times {
        library: None,
        plain: plain * 1e6,
        nested: nested * 1e6,
    }
}
