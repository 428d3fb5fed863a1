//! Comparisons on inputs that a seed chooses. One round takes one case and
//! does everything with it.

use inputs::acts;
use inputs::answers::{other_answers, shifted_empty};
use inputs::damage::{VERSIONS, damaged, with_version};
use inputs::graphs::{Size, random_case, text_of, with_wrong_value};
use inputs::rng::Rng;
use reference::answer::Answer;
use reference::case::Case;
use reference::checker;
use reference::run::by_rounds;

use crate::compare::{Comparison, Entry, LEAST, Lengths, Mismatch};
use crate::rests::{compare_list, compare_whole};

/// Longest list that a schedule is made for.
const LONGEST_LIST: usize = 20_000;

/// One round.
pub fn compare_round(comparison: &mut Comparison, rng: &mut Rng) -> Result<(), Mismatch> {
    let size = random_size(rng);
    let case = random_case(rng, size);
    let text = text_of(&case);
    let strokes = if size == Size::Large { 2 } else { 8 };

    let answer = compare_rounds(comparison, rng, &case, &text)?;
    compare_any_lists(comparison, rng, &case, &text)?;
    compare_busy_lists(comparison, rng, &case, &text)?;
    compare_other_answers(comparison, rng, &case, &text)?;
    compare_damaged_cases(comparison, rng, &case, &answer, strokes)?;
    compare_damaged_answers(comparison, rng, &text, &answer, strokes)
}

fn random_size(rng: &mut Rng) -> Size {
    match rng.below(400) {
        0 => Size::Large,
        1..=20 => Size::Medium,
        _ => Size::Small,
    }
}

fn random_lengths(rng: &mut Rng) -> Lengths {
    if rng.chance(4, 5) {
        return LEAST;
    }
    Lengths {
        output: rng.pick(&[0, 8_191, 8_192, 8_192, 8_193, 9_000, 9_000]),
        work: rng.pick(&[0, 16_383, 16_384, 16_384, 16_385, 20_000, 20_000]),
    }
}

/// The run by rounds and its own answer, also on a case that differs a bit.
/// Returns the answer.
fn compare_rounds(
    comparison: &mut Comparison,
    rng: &mut Rng,
    case: &Case,
    text: &[u8],
) -> Result<Vec<u8>, Mismatch> {
    comparison.run(Entry::Rounds, text, random_lengths(rng))?;
    let answer = compare_whole(comparison, case)?;
    let mut changed = case.clone();
    let vertex = rng.below(case.vertices());
    changed.accepting[vertex] ^= true;
    comparison.check(&text_of(&changed), &answer)?;
    changed.source = vertex;
    comparison.check(&text_of(&changed), &answer)?;
    Ok(answer)
}

/// Lists that do not look at the state: none, random ones, whole rounds, and
/// whole rounds up to the very end or one act less.
fn compare_any_lists(
    comparison: &mut Comparison,
    rng: &mut Rng,
    case: &Case,
    text: &[u8],
) -> Result<(), Mismatch> {
    let random_length = rng.below(12 * case.act_count().min(400));
    let random = acts::any(rng, case, random_length);
    let few_rounds = acts::rounds(case, rng.below(5));
    let out_of_range = acts::with_act_out_of_range(rng, case, &random);
    for acts in [&[], &random[..], &few_rounds, &out_of_range] {
        comparison.run(Entry::List(acts), text, random_lengths(rng))?;
    }
    // More acts than the run counts are enough rounds; long runs are left to
    // the run by rounds.
    let rounds = by_rounds(case).acts_counted as usize;
    if rounds * case.act_count() <= LONGEST_LIST {
        compare_around_end(comparison, rng, case, text, &acts::rounds(case, rounds))?;
    }
    Ok(())
}

/// Lists of acts that each do something, with many or few deliveries.
fn compare_busy_lists(
    comparison: &mut Comparison,
    rng: &mut Rng,
    case: &Case,
    text: &[u8],
) -> Result<(), Mismatch> {
    for turns_of_ten in [1, 6, 9, 10] {
        let list = acts::busy(rng, case, LONGEST_LIST, turns_of_ten);
        compare_around_end(comparison, rng, case, text, &list)?;
    }
    Ok(())
}

/// A list up to the act that ends the run, one act less, and with more acts
/// after the end, one of which may be out of range.
fn compare_around_end(
    comparison: &mut Comparison,
    rng: &mut Rng,
    case: &Case,
    text: &[u8],
    list: &[u32],
) -> Result<(), Mismatch> {
    let end = acts::length_to_end(case, list).unwrap_or(list.len());
    compare_list(comparison, case, text, &list[..end])?;
    compare_list(comparison, case, text, &list[..end - 1])?;
    comparison.run(Entry::List(&list[..end - 1]), text, random_lengths(rng))?;
    let mut longer = [&list[..end], &acts::any(rng, case, 5)].concat();
    comparison.run(Entry::List(&longer), text, random_lengths(rng))?;
    longer.push(case.act_count() as u32);
    comparison.run(Entry::List(&longer), text, random_lengths(rng))?;
    Ok(())
}

/// Answers that another tool might give, about either version's graph, each in
/// both versions and in what may be none.
fn compare_other_answers(
    comparison: &mut Comparison,
    rng: &mut Rng,
    case: &Case,
    text: &[u8],
) -> Result<(), Mismatch> {
    let mut answers = Vec::new();
    for version in checker::VERSIONS {
        answers.extend(other_answers(rng, case, version));
    }
    if let Some(Answer::Empty { reached }) = Answer::of(&by_rounds(case)) {
        answers.push(shifted_empty(rng, &reached));
    }
    for answer in answers {
        for version in checker::VERSIONS {
            let answer = answer.text_as(version).into_bytes();
            comparison.check(text, &answer)?;
            comparison.check(text, &damaged(rng, &answer))?;
        }
        let odd = answer.text_as(rng.pick(VERSIONS));
        comparison.check(text, odd.as_bytes())?;
    }
    Ok(())
}

/// Cases with damaged text, with wrong values, and with both.
fn compare_damaged_cases(
    comparison: &mut Comparison,
    rng: &mut Rng,
    case: &Case,
    answer: &[u8],
    strokes: usize,
) -> Result<(), Mismatch> {
    for _ in 0..strokes {
        let wrong = with_wrong_value(rng, case);
        let wrong_again = with_wrong_value(rng, &wrong);
        let text = text_of(rng.pick(&[case, case, &wrong, &wrong_again]));
        let text = if rng.chance(1, 3) {
            text
        } else {
            damaged(rng, &text)
        };
        if rng.chance(1, 2) {
            comparison.run(Entry::Rounds, &text, random_lengths(rng))?;
        } else {
            let acts: Vec<u32> = (0..rng.below(20)).map(|_| rng.below(9) as u32).collect();
            comparison.run(Entry::List(&acts), &text, random_lengths(rng))?;
        }
        comparison.check(&text, answer)?;
    }
    Ok(())
}

fn compare_damaged_answers(
    comparison: &mut Comparison,
    rng: &mut Rng,
    text: &[u8],
    answer: &[u8],
    strokes: usize,
) -> Result<(), Mismatch> {
    for _ in 0..2 * strokes {
        let answer = with_version(answer, rng.pick(&["1", "2", "2"]));
        comparison.check(text, &damaged(rng, &answer))?;
    }
    comparison.check(&damaged(rng, text), &damaged(rng, answer))?;
    Ok(())
}
