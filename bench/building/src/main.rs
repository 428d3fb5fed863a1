//! Measures the building of case files from charts and claims, and the listing
//! of steps by names: the library beside plain Rust that makes the same checks.

use std::hint::black_box;

use measure::clock::median_seconds;
use measure::products::{Answered, Pair, answered, pairs};
use measure::readers::{Measured, print_heading, print_row};
use plain::product::{self, Built, LEAST_OUTPUT};

const WORKERS: u32 = 16;

fn main() {
    print_heading("case built", "written");
    for pair in pairs() {
        print(pair.name, &Building(&pair));
    }
    println!();
    print_heading("steps listed", "written");
    for answered in answered() {
        print(answered.pair.name, &Listing(&answered));
    }
}

/// What both do.
trait Task {
    fn plain(&self, output: &mut [u8]) -> Built;

    #[cfg(library)]
    fn library(&self, output: &mut [u8]) -> rezkundo::Built;
}

struct Building<'a>(&'a Pair);

impl Task for Building<'_> {
    fn plain(&self, output: &mut [u8]) -> Built {
        let Pair { chart, claim, .. } = black_box(self.0);
        product::build_case(chart, claim, WORKERS, output)
    }

    #[cfg(library)]
    fn library(&self, output: &mut [u8]) -> rezkundo::Built {
        let Pair { chart, claim, .. } = black_box(self.0);
        rezkundo::build_case(chart, claim, WORKERS, output)
    }
}

struct Listing<'a>(&'a Answered);

impl Task for Listing<'_> {
    fn plain(&self, output: &mut [u8]) -> Built {
        let Answered { pair, answer } = black_box(self.0);
        product::list_steps(&pair.chart, &pair.claim, answer, output)
    }

    #[cfg(library)]
    fn library(&self, output: &mut [u8]) -> rezkundo::Built {
        let Answered { pair, answer } = black_box(self.0);
        rezkundo::list_steps(&pair.chart, &pair.claim, answer, output)
    }
}

fn print(name: &str, task: &impl Task) {
    let mut output = vec![0; LEAST_OUTPUT];
    let built = task.plain(&mut output);
    let (library, plain) = times(task, built, &output);
    let measured = Measured {
        refusal: built.refusal,
        library,
        plain,
    };
    print_row(name, built.written as usize, &measured);
}

fn plain_way(task: &impl Task) -> impl FnMut() {
    let mut output = vec![0; LEAST_OUTPUT];
    move || {
        black_box(task.plain(&mut output));
    }
}

/// Microseconds of both, once they have agreed on what comes of the task.
#[cfg(library)]
fn times(task: &impl Task, built: Built, output: &[u8]) -> (Option<f64>, f64) {
    let mut library_output = vec![0; LEAST_OUTPUT];
    let by_library = task.library(&mut library_output);
    let by_library = Built {
        refusal: by_library.refusal,
        mode: by_library.mode,
        combination: by_library.combination,
        written: by_library.written,
    };
    assert_eq!(by_library, built);
    assert!(library_output == output);
    let mut library = || {
        black_box(task.library(&mut library_output));
    };
    let [library, plain] = median_seconds([&mut library, &mut plain_way(task)]);
    (Some(library * 1e6), plain * 1e6)
}

#[cfg(not(library))]
fn times(task: &impl Task, _built: Built, _output: &[u8]) -> (Option<f64>, f64) {
    let [plain] = median_seconds([&mut plain_way(task)]);
    (None, plain * 1e6)
}
