//! The plain versions against the reference, so that what is measured also
//! does the same.

use inputs::damage::{damaged, every_small_change};
use inputs::graphs::{Size, every_case, first_edges, random_case, text_of};
use inputs::kept::kept_runs;
use inputs::rng::Rng;
use plain::rounds::Ended;
use plain::{nested, reader, rounds};
use reference::case::MOST_EDGES;
use reference::entries::{OUTPUT_BYTES, Reference, Tool, WORK_CELLS};

const SEED: u64 = 5;

/// The plain run by rounds, its answer, and the nested search's verdict.
fn assert_same(text: &[u8]) {
    let (mut output, mut work) = (vec![7; OUTPUT_BYTES], vec![7; WORK_CELLS]);
    let want = Reference.run_rounds(text, &mut output, &mut work);
    let mut plain_output = vec![7; OUTPUT_BYTES];
    let got = rounds::run(text, &mut plain_output);
    let wanted = if want.refusal == 0 {
        Ok(Ended {
            verdict: want.verdict,
            acts: want.acts,
            written: want.written,
            sent: want.tallies.sent,
            delivered: want.tallies.delivered,
        })
    } else {
        Err(want.refusal)
    };
    assert_eq!(got, wanted, "{}", text.escape_ascii());
    assert_eq!(plain_output, output, "{}", text.escape_ascii());
    let has_lasso = got.map(|ended| ended.verdict == 1);
    assert_eq!(nested::run(text), has_lasso, "{}", text.escape_ascii());
}

#[test]
fn same_runs_on_random_cases() {
    for (count, size) in [(4_000, Size::Small), (400, Size::Medium), (8, Size::Large)] {
        for round in 0..count {
            assert_same(&text_of(&random_case(
                &mut Rng::for_round(SEED, round),
                size,
            )));
        }
    }
}

#[test]
fn same_runs_on_every_small_graph() {
    for case in (1..=3).flat_map(every_case) {
        assert_same(&text_of(&case));
    }
}

/// 496 loops after 2,000 edges, and 500 after none.
#[test]
fn same_runs_on_the_most_loops() {
    for edges in [0, MOST_EDGES] {
        for source in [0, 499] {
            for accepting in [|_| false, |vertex| vertex == 499, |vertex| vertex % 9 == 4] {
                assert_same(&text_of(&first_edges(edges, source, accepting)));
            }
        }
    }
}

#[test]
fn same_refusals_on_damaged_cases() {
    for round in 0..20_000 {
        let mut rng = Rng::for_round(SEED + 1, round);
        let text = text_of(&random_case(&mut rng, Size::Small));
        assert_same(&damaged(&mut rng, &text));
    }
    for kept in kept_runs() {
        for text in every_small_change(kept.text.as_bytes()) {
            let want = reference::case::read(&text)
                .err()
                .map(|refusal| refusal.number());
            assert_eq!(reader::read(&text).err(), want, "{}", text.escape_ascii());
        }
    }
}
