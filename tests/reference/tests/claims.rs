//! The reference's reading of claims against the readings that were settled,
//! one by one, and against claims whose meaning is known.

use inputs::claim_changes::every_token_change;
use inputs::claim_rows::{READINGS, rows};
use inputs::claims::{Drawn, RIGHT, greatest_claim, random_claim};
use inputs::readings;
use inputs::rng::Rng;
use reference::claim::{self, Claim, LIMITS, read_tokens};
use reference::claim_tokens::{Fault, Kind, Limits, tokens};
use reference::entries::{ClaimRead, Reference, Tool};
use reference::refusal::Refusal;

fn holds(reading: usize) {
    for (text, refusal) in rows(reading) {
        let read = Reference.read_claim(&text);
        assert_eq!(read.refusal, refusal, "{}", shown(&text));
        if refusal != 0 {
            let nothing = ClaimRead::default();
            assert_eq!(read, ClaimRead { refusal, ..nothing });
            assert_eq!(Reference.claim_moves(&text, 0, 0), 0);
        }
    }
}

/// A text without its long runs of blanks.
fn shown(text: &[u8]) -> String {
    let shown = text.escape_ascii().to_string();
    shown.replace(&" ".repeat(1_000), "")
}

readings! {
    reading_1_blanks 1
    reading_2_names 2
    reading_3_integers 3
    reading_4_strings 4
    reading_5_comments_aliases_and_other_bytes 5
    reading_6_opening 6
    reading_7_where_a_token_is_told 7
    reading_8_sixteen_only_where_the_format_has_it 8
    reading_9_states 9
    reading_10_start 10
    reading_11_propositions 11
    reading_12_acceptance 12
    reading_13_second_headers 13
    reading_14_other_headers 14
    reading_15_end_of_the_header 15
    reading_16_lines 16
    reading_17_names_and_marks_of_states 17
    reading_18_edges 18
    reading_19_labels 19
    reading_20_end 20
    reading_21_length 21
}

fn taken(text: &str) -> ClaimRead {
    let read = Reference.read_claim(text.as_bytes());
    assert_eq!(read.refusal, 0, "{text}");
    read
}

#[test]
fn counts_marks_and_names_of_the_right_claims() {
    let counts = |text| {
        let read = taken(text);
        (read.states, read.start, read.propositions)
    };
    assert_eq!(
        RIGHT.map(counts),
        [(2, 1, 1), (3, 0, 2), (4, 2, 3), (1, 0, 0)]
    );
    let [gf_a, response, dense, least] = RIGHT.map(|text| taken(text).accepting);
    assert_eq!(gf_a[..3], [1, 0, 0]);
    assert_eq!(response[..4], [1, 0, 0, 0]);
    assert_eq!(dense[..5], [1, 0, 1, 0, 0]);
    assert_eq!(least, [0; 15]);
    assert_eq!(taken(RIGHT[0]).name_at, [0; 15]);
}

#[test]
fn names_are_given_as_stored() {
    let text = RIGHT[1];
    let read = taken(text);
    let name =
        |state: usize| &text[read.name_at[state] as usize..][..read.name_length[state] as usize];
    assert_eq!(name(0), r#"G(\"r\" -> F g)"#);
    assert_eq!(name(2), r"[F g, \\]");
    assert_eq!(name(1), "");
    assert_eq!(text[..read.name_at[1] as usize].chars().last(), Some('"'));
    assert_eq!((read.name_at[3], read.name_length[3]), (0, 0));
}

#[test]
fn the_greatest_claim_is_taken() {
    let read = taken(&greatest_claim());
    assert_eq!((read.states, read.start, read.propositions), (15, 14, 8));
    assert_eq!(read.name_length, [32; 15]);
    let moves = |state, values| Reference.claim_moves(greatest_claim().as_bytes(), state, values);
    // State 14: 6 & 1 | 6 to 14, 7 & 1 | 0 to 3, 0 & 1 | 2 to 7.
    assert_eq!(moves(14, 0b0100_0000), 1 << 14);
    assert_eq!(moves(14, 0b1000_0010), 1 << 3);
    assert_eq!(moves(14, 0b0000_0101), 1 << 3 | 1 << 7);
    assert_eq!(moves(14, 0b0000_1010), 0);
}

/// The flag values of two propositions on which a label holds, as bits.
fn truth(label: &str) -> u32 {
    let header = "HOA: v1 AP: 2 \"a\" \"b\" States: 1 Start: 0 Acceptance: 1 Inf(0)";
    let text = format!("{header} --BODY-- State: 0 [{label}] 0 --END--");
    let moves = |values| Reference.claim_moves(text.as_bytes(), 0, values);
    (0..4).fold(0, |bits, values| bits | moves(values) << values)
}

#[test]
fn labels_hold_by_their_binding() {
    for (label, values) in [
        ("t", 0b1111),
        ("f", 0b0000),
        ("0", 0b1010),
        ("1", 0b1100),
        ("!0", 0b0101),
        ("!!0", 0b1010),
        ("0&1", 0b1000),
        ("0|1", 0b1110),
        ("0|1&!0", 0b1110),
        ("(0|1)&!0", 0b0100),
        ("!0&1", 0b0100),
        ("!(0&1)", 0b0111),
        ("!0|1", 0b1101),
        ("!(0|1)", 0b0001),
        ("t|0&f", 0b1111),
        ("f&0|t", 0b1111),
        ("(t|0)&f", 0b0000),
        ("0&!1|!0&1", 0b0110),
        ("!0|1&0|!1", 0b1111),
        ("!(!(0)&!(1))", 0b1110),
    ] {
        assert_eq!(truth(label), values, "{label}");
    }
}

#[test]
fn moves_out_of_range_are_none() {
    let moves = |state, values| Reference.claim_moves(RIGHT[0].as_bytes(), state, values);
    assert_eq!(
        [moves(0, 0), moves(0, 1), moves(1, 0), moves(1, 1)],
        [2, 1, 2, 1]
    );
    for (state, values) in [
        (2, 0),
        (0, 2),
        (15, 1),
        (u32::MAX, 0),
        (0, u32::MAX),
        (32, 0),
    ] {
        assert_eq!(moves(state, values), 0);
    }
    assert_eq!(Reference.claim_moves(RIGHT[3].as_bytes(), 0, 0), 0);
}

#[test]
fn random_claims_are_read_as_they_were_drawn() {
    for round in 0..3_000 {
        let (drawn, text) = random_claim(&mut Rng::for_round(1, round));
        let claim =
            claim::read(&text).unwrap_or_else(|refusal| panic!("{refusal:?}: {}", shown(&text)));
        assert!(says(&claim, &drawn, &text), "{}", shown(&text));
    }
}

fn says(claim: &Claim, drawn: &Drawn, text: &[u8]) -> bool {
    let counts = (
        claim.start as usize,
        claim.propositions as usize,
        claim.states.len(),
    );
    let mut states = claim.states.iter().zip(&drawn.states);
    counts == (drawn.start, drawn.propositions, drawn.states.len())
        && states.all(|(read, drawn)| {
            let name = read.name.clone().map(|name| text[name].to_vec());
            read.accepting == drawn.accepting && name == drawn.name
        })
        && (0..1 << drawn.propositions).all(|values| {
            (0..drawn.states.len()).all(|state| {
                let edges = drawn.states[state].edges.iter();
                let holding = edges.filter(|(label, _)| label.truth(values));
                let moves = holding.fold(0, |moves, (_, target)| moves | 1 << target);
                claim.moves(state as u32, values) == moves
            })
        })
}

/// All rows, and all that one token changed makes of a small claim.
fn many_texts() -> impl Iterator<Item = Vec<u8>> {
    let of_rows = (1..=READINGS).flat_map(rows).map(|(text, _)| text);
    of_rows.chain(every_token_change(RIGHT[0].as_bytes()))
}

fn fault_of(text: &[u8], limits: Limits) -> Option<Fault> {
    read_tokens(&tokens(text), limits).err()
}

/// A fault is told by its byte: whatever comes after that one, the refusal is
/// the same.
#[test]
fn nothing_after_a_told_fault_matters() {
    for text in many_texts() {
        let Some(fault) = fault_of(&text, LIMITS) else {
            continue;
        };
        let front = &text[..tokens(&text)[fault.at].told];
        if front.len() == text.len() {
            continue;
        }
        for rest in ["", " ", "x", "0", "\"", "*/", ":", "--END--", "\n)]} 0"] {
            let other = [front, rest.as_bytes()].concat();
            assert_eq!(claim::read(&other), Err(fault.refusal), "{}", shown(&other));
        }
    }
}

/// A fault is told no later than it can be: what stands before it is the front
/// of a taken claim, its length aside.
#[test]
fn what_stands_before_a_fault_can_be_completed() {
    let unlimited = Limits {
        bytes: usize::MAX,
        ..LIMITS
    };
    for text in many_texts().filter(|text| text.len() < 2_000) {
        let Some(fault) = fault_of(&text, unlimited) else {
            continue;
        };
        if fault.refusal != Refusal::NotAClaim {
            let end = tokens(&text)[fault.at - 1].end;
            assert!(completes(text[..end].to_vec()), "{}", shown(&text[..end]));
        }
    }
}

/// Tokens that complete a claim, if each time the first is taken that may
/// follow, and how many of them are enough.
const COMPLETING: &str = "--END-- --BODY-- ] ) } State: States: Start: Acceptance: t 1 Inf ( 0 \
                          2 3 4 5 6 7 8 9 10 11 12 13 14 15 \"s\"";
const ENOUGH: usize = 100;

fn completes(mut front: Vec<u8>) -> bool {
    for _ in 0..ENOUGH {
        if claim::read(&front).is_ok() {
            return true;
        }
        let tokens = COMPLETING.split_whitespace();
        let mut longer = tokens.map(|token| [&front[..], b" ", token.as_bytes()].concat());
        match longer.find(|longer| may_go_on(longer)) {
            Some(longer) => front = longer,
            None => return false,
        }
    }
    false
}

/// Whether the first fault of a front is its end, if there is any.
fn may_go_on(front: &[u8]) -> bool {
    let token_at = |fault: Fault| tokens(front)[fault.at].kind;
    fault_of(front, LIMITS).is_none_or(|fault| token_at(fault) == Kind::Nothing)
}
