//! The reference against the paper's own examples and the readings that were
//! settled for the places where the paper can be read in two ways.

use inputs::kept::{K1, kept_runs};
use reference::entries::{Checked, OUTPUT_BYTES, Outcome, Reference, Tool, WORK_CELLS};
use reference::run::Tallies;

const LASSO: &str = "version verdict stem cycle reached\n2 lasso 1 2 0\nedge\n0\n1\n2\n";

fn outcome_of_list(text: &str, acts: &[u32]) -> Outcome {
    let (mut output, mut work) = (vec![0; OUTPUT_BYTES], vec![0; WORK_CELLS]);
    Reference.run_list(text.as_bytes(), acts, &mut output, &mut work)
}

fn refusal_of_case(text: &str) -> u32 {
    let (mut output, mut work) = (vec![0; OUTPUT_BYTES], vec![0; WORK_CELLS]);
    Reference
        .run_rounds(text.as_bytes(), &mut output, &mut work)
        .refusal
}

fn checked(text: &str, answer: &str) -> Checked {
    Reference.check_answer(text.as_bytes(), answer.as_bytes())
}

/// Of an answer of version 2 to a case in which no vertex rests: one of version
/// 1 gets the same.
fn checked_in_both_versions(text: &str, answer: &str) -> Checked {
    let of_first = answer.replacen("\n2 ", "\n1 ", 1);
    assert_eq!(checked(text, &of_first), checked(text, answer), "{answer}");
    checked(text, answer)
}

fn refusal_of_answer(answer: &str) -> u32 {
    checked_in_both_versions(K1, answer).refusal
}

fn empty_answer(counts: &str, lines: &str) -> String {
    format!("version verdict stem cycle reached\n2 empty {counts}\nvertex distance\n{lines}")
}

#[test]
fn kept_runs_come_out_as_printed() {
    for kept in kept_runs() {
        let (mut output, mut work) = (vec![7; OUTPUT_BYTES], vec![7; WORK_CELLS]);
        let text = kept.text.as_bytes();
        let outcome = match &kept.acts {
            Some(acts) => Reference.run_list(text, acts, &mut output, &mut work),
            None => Reference.run_rounds(text, &mut output, &mut work),
        };
        assert_eq!(outcome, kept.outcome, "{}", kept.name);
        let (answer, rest) = output.split_at(kept.answer.len());
        assert_eq!(answer, kept.answer.as_bytes(), "{}", kept.name);
        assert!(rest.iter().all(|&byte| byte == 7), "{}", kept.name);
    }
}

#[test]
fn the_version_is_judged_before_the_rest_of_both_lines() {
    assert_eq!(refusal_of_case("version x\n2"), 3);
    assert_eq!(refusal_of_case("version \n0 \n"), 3);
    assert_eq!(refusal_of_case("version x\n2\r\n"), 4);
    assert_eq!(refusal_of_case("version x\n01 3\n"), 4);
    assert_eq!(refusal_of_case("version x\n1234567890 3\n"), 4);
    assert_eq!(refusal_of_case("version 2"), 4);
    assert_eq!(refusal_of_case("version"), 2);
    assert_eq!(refusal_of_case(""), 2);
}

#[test]
fn the_first_faulty_line_decides() {
    let torn_third_line = "version vertices edges source workers\n1 501 0 0 1\nvert";
    assert_eq!(refusal_of_case(torn_third_line), 5);
    let torn_second_line = "version vertices edges source workers\n1 501 0 0 1";
    assert_eq!(refusal_of_case(torn_second_line), 4);
    assert_eq!(refusal_of_case(&K1.replace("1 1 1\n", "1 2 1\nx")), 6);
    assert_eq!(
        refusal_of_case(&(K1.replace("1 2\n2 1", "1 3\n2 1") + "\n")),
        7
    );
    assert_eq!(
        refusal_of_case(&(K1.replace("1 2\n2 1", "1 2\n1 2") + "\n")),
        8
    );
    assert_eq!(refusal_of_case(&(K1.to_owned() + "\n")), 4);
    assert_eq!(refusal_of_case(&K1.replace("1 2\n2 1", "2 1\n0 3")), 7);
}

#[test]
fn no_file_of_the_greatest_length_is_too_long() {
    let padded = |length: usize| K1.to_owned() + &"x".repeat(length - K1.len());
    assert_eq!(refusal_of_case(&padded(65_536)), 4);
    assert_eq!(refusal_of_case(&padded(65_537)), 1);
}

#[test]
fn short_buffers_go_before_everything() {
    let refused = Outcome {
        refusal: 11,
        ..Outcome::default()
    };
    for (bytes, cells) in [
        (OUTPUT_BYTES - 1, WORK_CELLS),
        (OUTPUT_BYTES, WORK_CELLS - 1),
        (0, 0),
    ] {
        let (mut output, mut work) = (vec![7; bytes], vec![7; cells]);
        let overlong = vec![b'x'; 70_000];
        assert_eq!(
            Reference.run_list(&overlong, &[9], &mut output, &mut work),
            refused
        );
        assert_eq!((output, work), (vec![7; bytes], vec![7; cells]));
    }
}

#[test]
fn an_act_out_of_range_counts_after_the_end_too() {
    let (mut output, mut work) = (vec![7; OUTPUT_BYTES], vec![7; WORK_CELLS + 1]);
    let mut acts: Vec<u32> = [0, 2, 1, 3, 0, 4, 1, 3].to_vec();
    let ended = Reference.run_list(K1.as_bytes(), &acts, &mut output, &mut work);
    assert_eq!((ended.refusal, ended.verdict, ended.acts), (0, 1, 8));
    assert!(work.iter().all(|&cell| cell == 0));
    acts.push(5);
    let refused = Reference.run_list(K1.as_bytes(), &acts, &mut output, &mut work);
    assert_eq!(
        refused,
        Outcome {
            refusal: 9,
            ..Outcome::default()
        }
    );
}

#[test]
fn a_list_that_runs_out_zeroes_the_whole_work_buffer() {
    let (mut output, mut work) = (vec![7; OUTPUT_BYTES], vec![7; WORK_CELLS + 99]);
    let outcome = Reference.run_list(K1.as_bytes(), &[0, 0, 2], &mut output, &mut work);
    assert_eq!(
        outcome,
        Outcome {
            refusal: 10,
            acts: 2,
            tallies: Tallies {
                sent: 1,
                delivered: 1,
                joined: 0
            },
            ..Outcome::default()
        }
    );
    assert!(work.iter().all(|&cell| cell == 0));
    assert!(output.iter().all(|&byte| byte == 7));
}

/// Vertex 1 is accepting and has an edge to itself between two to vertices of
/// another owner, so its second scan breaks the floor at its second edge.
#[test]
fn a_scan_that_the_floor_cuts_counts_the_offers_before_the_break() {
    let text = "version vertices edges source workers
1 3 3 1 2
vertex accepting owner
0 0 0
1 1 1
2 0 0
from to
1 0
1 1
1 2
";
    let outcome = outcome_of_list(text, &[1, 1]);
    assert_eq!((outcome.refusal, outcome.verdict, outcome.acts), (0, 1, 2));
    let tallies = Tallies {
        sent: 3,
        delivered: 0,
        joined: 1,
    };
    assert_eq!(outcome.tallies, tallies);
}

#[test]
fn a_list_with_an_act_out_of_range_has_no_tallies() {
    let sent = |acts: &[u32]| outcome_of_list(K1, acts).tallies.sent;
    assert_eq!(sent(&[0, 2, 1]), 2);
    assert_eq!(sent(&[0, 2, 1, 5]), 0);
}

#[test]
fn the_case_is_judged_before_the_answer() {
    let overlong = vec![b'x'; 65_537];
    let broken_case = K1.replace("1 3 3 0 2", "1 3 3 3 2");
    let checked = Reference.check_answer(broken_case.as_bytes(), &overlong);
    assert_eq!(
        checked,
        Checked {
            refusal: 5,
            verdict: 0
        }
    );
    assert_eq!(Reference.check_answer(K1.as_bytes(), &overlong).refusal, 1);
    assert_eq!(
        Reference
            .check_answer(K1.as_bytes(), &overlong[1..])
            .refusal,
        12
    );
}

#[test]
fn answers_are_judged_front_to_back() {
    assert_eq!(refusal_of_answer(LASSO), 0);
    assert_eq!(refusal_of_answer(""), 12);
    assert_eq!(refusal_of_answer("version x\n3"), 3);
    assert_eq!(refusal_of_answer("version x\n2"), 12);
    assert_eq!(refusal_of_answer(&LASSO.replace("2 lasso", "02 lasso")), 12);
    assert_eq!(
        refusal_of_answer(&LASSO.replace("lasso 1 2 0", "lasso 3 0 0")),
        12
    );
    assert_eq!(
        refusal_of_answer(&LASSO.replace("lasso 1 2 0", "lasso 1 2 1")),
        12
    );
    assert_eq!(
        refusal_of_answer(&LASSO.replace("lasso 1 2 0", "lasso 501 2 0")),
        12
    );
    assert_eq!(refusal_of_answer(&LASSO.replace("1\n2\n", "1\n3\nx")), 13);
    assert_eq!(
        refusal_of_answer(&(LASSO.replace("1\n2\n", "2\n1\n") + "\n")),
        12
    );
    assert_eq!(refusal_of_answer(&LASSO.replace("1\n2\n", "2\n1\n")), 13);
}

#[test]
fn on_a_vertex_line_layout_goes_first_and_the_vertex_second() {
    assert_eq!(refusal_of_answer(&empty_answer("0 0 1", "9 -0\n")), 13);
    assert_eq!(refusal_of_answer(&empty_answer("0 0 1", "0 -0\n")), 12);
    assert_eq!(refusal_of_answer(&empty_answer("0 0 1", "9 -00\n")), 12);
    assert_eq!(refusal_of_answer(&empty_answer("0 0 1", "9 501\n")), 13);
    assert_eq!(refusal_of_answer(&empty_answer("0 0 1", "0 501\n")), 12);
    assert_eq!(
        refusal_of_answer(&empty_answer("0 0 1", "9 1000000000\n")),
        12
    );
    assert_eq!(
        refusal_of_answer(&empty_answer("0 0 2", "1 0\n1 501\n")),
        13
    );
    assert_eq!(refusal_of_answer(&empty_answer("0 0 0", "")), 12);
}

#[test]
fn another_tools_numbers_may_pass() {
    let k2 = K1.replace("0 0 0\n1 1 1", "0 1 0\n1 0 1");
    let check = |lines: &str, count: usize| {
        let answer = empty_answer(&format!("0 0 {count}"), lines);
        checked_in_both_versions(&k2, &answer)
    };
    assert_eq!(
        check("0 500\n1 9\n2 9\n", 3),
        Checked {
            refusal: 0,
            verdict: 2
        }
    );
    assert_eq!(check("0 0\n1 0\n2 0\n", 3).refusal, 13);
    assert_eq!(check("0 0\n1 -1\n", 2).refusal, 13);
    assert_eq!(check("1 0\n2 0\n", 2).refusal, 13);
}
