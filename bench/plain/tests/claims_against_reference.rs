//! The plain reader of claims against the reference: the same refusals, and
//! for claims that are taken the same counts and tables.

use inputs::claim_changes::{
    at_edge, changed, every_odd_token_at_edge, every_token_at_edge, every_token_change,
};
use inputs::claim_rows::{READINGS, rows};
use inputs::claims::{RIGHT, greatest_claim, random_claim};
use inputs::damage::every_small_change;
use inputs::rng::Rng;
use plain::claims::{self, Counts, MOST_STATES, Tables};
use reference::claim::{self, Claim};

const SEED: u64 = 7;

fn assert_same(text: &[u8], tables: &mut Tables) {
    let got = claims::read(text, tables);
    let want = claim::read(text);
    let counts = |claim: &Claim| Counts {
        states: claim.states.len() as u32,
        start: claim.start,
        propositions: claim.propositions,
    };
    let wanted = want.as_ref().map(counts).map_err(|fault| fault.number());
    assert_eq!(got, wanted, "{}", text.escape_ascii());
    if let Ok(claim) = want {
        assert_held(text, &claim, tables);
    }
}

fn assert_held(text: &[u8], claim: &Claim, tables: &Tables) {
    for number in 0..MOST_STATES {
        let state = claim.states.get(number);
        let name = state.and_then(|state| state.name.clone()).unwrap_or(0..0);
        let edges = state.map_or(&[][..], |state| &state.edges);
        let leads = edges.iter().fold(0, |leads, edge| leads | 1 << edge.target);
        let want = [
            u32::from(state.is_some_and(|state| state.accepting)),
            name.start as u32,
            name.len() as u32,
            leads,
        ];
        let got = [
            tables.marks[number],
            tables.name_places[number],
            tables.name_lengths[number],
            tables.leads[number],
        ];
        assert_eq!(got, want, "state {number} of {}", text.escape_ascii());
        for (values, &moves) in tables.moves[number].iter().enumerate() {
            // Flags that are no proposition change nothing.
            let known = values as u32 & ((1 << claim.propositions) - 1);
            let want = claim.moves(number as u32, known);
            assert_eq!(moves, want, "{number}, {values} of {}", text.escape_ascii());
        }
    }
}

#[test]
fn same_on_every_settled_reading() {
    let tables = &mut Tables::empty();
    for (text, _) in (1..=READINGS).flat_map(rows) {
        assert_same(&text, tables);
    }
}

#[test]
fn same_on_right_claims_and_every_small_change() {
    let tables = &mut Tables::empty();
    assert_same(greatest_claim().as_bytes(), tables);
    for text in RIGHT.map(str::as_bytes) {
        assert_same(text, tables);
        for text in every_small_change(text) {
            assert_same(&text, tables);
        }
        for text in every_token_change(text) {
            assert_same(&text, tables);
        }
    }
}

#[test]
fn same_at_the_edge_of_the_longest_text() {
    let tables = &mut Tables::empty();
    for text in RIGHT.map(str::as_bytes) {
        for text in every_token_at_edge(text) {
            assert_same(&text, tables);
        }
    }
    for text in every_odd_token_at_edge(RIGHT[2].as_bytes()) {
        assert_same(&text, tables);
    }
}

#[test]
fn same_on_random_claims_and_changed_ones() {
    let tables = &mut Tables::empty();
    for round in 0..10_000 {
        let mut rng = Rng::for_round(SEED, round);
        let (_, text) = random_claim(&mut rng);
        assert_same(&text, tables);
        for _ in 0..4 {
            assert_same(&changed(&mut rng, &text), tables);
        }
        if round % 20 == 0 {
            assert_same(&at_edge(&mut rng, &text), tables);
        }
    }
}
