//! Calls for each reading that was settled of the customer's request on charts
//! and claims together, with what they leave.

use std::fmt::Write;

use crate::charts::text_of;
use crate::damage::with_version;
use crate::products::{
    Call, EXAMPLE_ANSWER, EXAMPLE_CASE, EXAMPLE_CHART, EXAMPLE_CLAIM, EXAMPLE_STEPS, Making,
    claim_of, counted_chart, counted_claim, split_claim,
};

/// How many readings there are.
pub const READINGS: usize = 12;

/// A refusal with mode and combination.
type Refused = (u32, u32, u32);

/// The text that a call writes, or its refusal.
pub type Want = Result<Vec<u8>, Refused>;

/// Calls, each with what it leaves.
pub type Rows = Vec<(Call, Want)>;

/// The least output stands here once more, and not as the reference has it, so
/// that the rows show a wrong one there.
const OUTPUT: usize = 65_536;

/// The rows of one reading, by its number.
pub fn rows(reading: usize) -> Rows {
    match reading {
        1 => pairs(),
        2 => starts(),
        3 => [combinations(), edges_once()].concat(),
        4 => [flags_by_number(), counts()].concat(),
        5 => owners(),
        6 => [outputs(), workers()].concat(),
        7 => [building_by_two_reasons(), listing_by_two_reasons()].concat(),
        8 => edges(),
        9 => answers(),
        10 => lines(),
        11 => names(),
        12 => [stopped_claims(), versions()].concat(),
        _ => panic!("no reading {reading}"),
    }
}

/// A chart with this line 2, these names and these rules.
fn chart(counts: &str, names: &str, rules: &str) -> Vec<u8> {
    let (names, rules) = (names.replace(' ', "\n"), rules.replace(", ", "\n"));
    let text = format!(
        "version modes start flags\n{counts}\nname\n{names}\nmode care value next\n{rules}\n"
    );
    text.into_bytes()
}

fn build(chart: &[u8], claim: &[u8], workers: u32) -> Call {
    Call {
        chart: chart.to_vec(),
        claim: claim.to_vec(),
        making: Making::Case(workers),
        output: OUTPUT,
    }
}

fn list(chart: &[u8], claim: &[u8], answer: &[u8]) -> Call {
    Call {
        making: Making::Steps(answer.to_vec()),
        ..build(chart, claim, 0)
    }
}

/// The example for so many workers.
fn example(workers: u32) -> Call {
    build(EXAMPLE_CHART.as_bytes(), EXAMPLE_CLAIM.as_bytes(), workers)
}

/// The steps of an answer to the example.
fn example_steps(answer: &[u8]) -> Call {
    list(EXAMPLE_CHART.as_bytes(), EXAMPLE_CLAIM.as_bytes(), answer)
}

fn refused(refusal: u32) -> Want {
    Err((refusal, 0, 0))
}

/// A case file for one worker, with a mark for each vertex.
fn case_file(source: usize, marks: &str, edges: &[(usize, usize)]) -> Want {
    let (vertices, count) = (marks.len(), edges.len());
    let mut text = format!("version vertices edges source workers\n1 {vertices} {count} ");
    text += &format!("{source} 1\nvertex accepting owner\n");
    for (vertex, mark) in marks.chars().enumerate() {
        writeln!(text, "{vertex} {mark} 0").expect("a string takes any text");
    }
    text += "from to\n";
    for (from, to) in edges {
        writeln!(text, "{from} {to}").expect("a string takes any text");
    }
    Ok(text.into_bytes())
}

fn lasso(stem: &[usize], cycle: &[usize]) -> String {
    let counts = format!("2 lasso {} {} 0", stem.len(), cycle.len());
    let edges = stem.iter().chain(cycle).map(|edge| format!("{edge}\n"));
    let edges: String = edges.collect();
    format!("version verdict stem cycle reached\n{counts}\nedge\n{edges}")
}

fn empty(lines: &[&str]) -> String {
    let counts = format!("2 empty 0 0 {}", lines.len());
    let lines: String = lines.iter().map(|line| format!("{line}\n")).collect();
    format!("version verdict stem cycle reached\n{counts}\nvertex distance\n{lines}")
}

/// Every pair is a vertex, one that cannot be reached too, and it is accepting
/// where its claim state is and an edge leaves it.
fn pairs() -> Rows {
    let apart = chart("1 2 0 1", "A B", "0 0 0 0, 1 0 0 1");
    let loops = [(0, 0), (1, 1), (2, 2), (3, 3)];
    let lines = ["[t] 0", "{0} [t] 1"];
    vec![
        (example(2), Ok(EXAMPLE_CASE.into())),
        (
            build(&apart, &claim_of(0, 1, &lines), 1),
            case_file(0, "0101", &loops),
        ),
        (
            build(&apart, &claim_of(0, 1, &["", "{0}"]), 1),
            case_file(0, "0000", &[]),
        ),
        (
            build(&apart, &claim_of(0, 1, &["{0} [f] 0"]), 1),
            case_file(0, "00", &[]),
        ),
        (
            build(&apart, &claim_of(0, 1, &["{} [0] 0"]), 1),
            case_file(0, "00", &[(0, 0), (1, 1)]),
        ),
    ]
}

/// The source is the start's mode times the claim's states plus its start.
fn starts() -> Rows {
    let mut rows = Rows::new();
    for (mode, state) in [(0, 0), (1, 0), (0, 2), (1, 2), (2, 1)] {
        let counts = format!("1 3 {mode} 1");
        let chart = chart(&counts, "A B C", "0 0 0 1, 1 0 0 2, 2 0 0 0");
        let claim = claim_of(state, 1, &["", "{0}", "{0} [t] 1"]);
        let edges = [(2, 4), (5, 7), (8, 1)];
        rows.push((
            build(&chart, &claim, 1),
            case_file(3 * mode + state, "001001001", &edges),
        ));
    }
    rows
}

/// Both flags on lead from mode 0 to mode 1, which stays. An edge stands where one
/// combination lets both parts move, whichever it is, and not where each moves
/// on another one.
fn combinations() -> Rows {
    let chart = chart("1 2 0 2", "A B", "0 3 3 1, 0 1 0 0, 0 3 1 0, 1 0 0 1");
    let (stay, go) = ([(0, 0), (1, 1)], [(0, 1), (1, 1)]);
    let both = [(0, 0), (0, 1), (1, 1)];
    let rows: [(&str, &[_]); 8] = [
        ("[t] 0", &both),
        ("[f] 0", &[]),
        ("[0 & 1] 0", &go),
        ("[!0 & !1] 0", &stay),
        ("[0 & !1] 0", &stay),
        ("[1] 0", &both),
        ("[!(0 & 1)] 0", &stay),
        ("[f] 0 [0 & 1] 0", &go),
    ];
    rows.map(|(line, edges)| {
        (
            build(&chart, &claim_of(0, 2, &[line]), 1),
            case_file(0, "00", edges),
        )
    })
    .into()
}

/// Edges stand once, in rising order, however they stand in the claim.
fn edges_once() -> Rows {
    let chart = chart("1 2 1 1", "A B", "1 1 1 0, 1 1 0 1, 0 0 0 1");
    let edges = [
        (0, 2),
        (0, 3),
        (1, 3),
        (2, 0),
        (2, 1),
        (2, 2),
        (2, 3),
        (3, 1),
        (3, 3),
    ];
    let rows: [[&str; 2]; 3] = [
        ["[t] 1 [t] 0", "{0} [t] 1"],
        ["[t] 0 [t] 1 [t] 0 [0] 1", "{0} [t] 1 [t] 1 [t] 1"],
        ["[!0] 1 [!0] 0 [0] 0 [0] 1", "{0} [0] 1 [!0] 1 [f] 0"],
    ];
    rows.map(|lines| {
        (
            build(&chart, &claim_of(0, 1, &lines), 1),
            case_file(2, "0101", &edges),
        )
    })
    .into()
}

/// Proposition i is flag i, whatever its name.
fn flags_by_number() -> Rows {
    let chart = chart("1 2 0 3", "A B", "0 4 4 1, 0 4 0 0, 1 0 0 1");
    let rows: [(&str, &[_]); 4] = [
        ("[2] 0", &[(0, 1), (1, 1)]),
        ("[!2] 0", &[(0, 0), (1, 1)]),
        ("[0] 0", &[(0, 0), (0, 1), (1, 1)]),
        ("[0 & !0] 0", &[]),
    ];
    let mut all = Rows::new();
    for (line, edges) in rows {
        let claim = claim_of(0, 3, &[line]);
        let named = String::from_utf8(claim.clone()).expect("a plain claim");
        let named = named.replace("\"p\" \"p\" \"p\"", "\"flag 2\" \"flag 1\" \"\"");
        all.push((build(&chart, &claim, 1), case_file(0, "00", edges)));
        all.push((
            build(&chart, named.as_bytes(), 1),
            case_file(0, "00", edges),
        ));
    }
    all
}

/// As many propositions as flags.
fn counts() -> Rows {
    let bare = "HOA: v1 States: 1 Start: 0 Acceptance: 1 Inf(0) --BODY-- State: 0 [t] 0 --END--";
    let mut rows = Rows::new();
    for flags in 1..=8 {
        let chart = chart(&format!("1 1 0 {flags}"), "A", "0 0 0 0");
        for propositions in 0..=8 {
            let claim = claim_of(0, propositions, &["[t] 0"]);
            let equal = flags == propositions;
            let (case, steps) = (case_file(0, "0", &[(0, 0)]), refused(13));
            let want = |want| if equal { want } else { refused(20) };
            let answer = lasso(&[], &[0]);
            rows.push((build(&chart, &claim, 1), want(case)));
            rows.push((list(&chart, &claim, answer.as_bytes()), want(steps)));
        }
        rows.push((build(&chart, bare.as_bytes(), 1), refused(20)));
    }
    rows
}

/// Vertex v belongs to worker v modulo workers.
fn owners() -> Rows {
    (1..=16)
        .map(|workers| {
            let text = EXAMPLE_CASE.replace("1 4 12 0 2", &format!("1 4 12 0 {workers}"));
            let line = |vertex: u32| format!("{vertex} {} {}\n", vertex % 2, vertex % workers);
            let lines: String = (0..4).map(line).collect();
            let text = text.replace("0 0 0\n1 1 1\n2 0 0\n3 1 1\n", &lines);
            (example(workers), Ok(text.into_bytes()))
        })
        .collect()
}

/// The output's length, which goes before all else.
fn outputs() -> Rows {
    let mut rows = Rows::new();
    for output in [0, 1, 8_192, OUTPUT - 1, OUTPUT, OUTPUT + 1, 2 * OUTPUT] {
        let long_enough = output >= OUTPUT;
        for (call, want) in [
            (example(2), Ok(EXAMPLE_CASE.into())),
            (example(0), refused(5)),
            (build(b"", b"", 1), refused(17)),
            (
                example_steps(EXAMPLE_ANSWER.as_bytes()),
                Ok(EXAMPLE_STEPS.into()),
            ),
            (example_steps(b""), refused(12)),
        ] {
            let want = if long_enough { want } else { refused(11) };
            rows.push((Call { output, ..call }, want));
        }
    }
    rows
}

/// Workers out of range, which go before both files.
fn workers() -> Rows {
    let overlong = vec![b'x'; OUTPUT + 1];
    let mut rows = Rows::new();
    for workers in [0, 17, 18, 256 + 1, (1 << 16) + 1, 1 << 31, u32::MAX] {
        for (chart, claim) in [
            (EXAMPLE_CHART.as_bytes(), EXAMPLE_CLAIM.as_bytes()),
            (b"", b""),
            (&overlong, &overlong),
        ] {
            rows.push((build(chart, claim, workers), refused(5)));
        }
    }
    rows
}

/// A chart of two flags in four ways, with what each is refused by.
fn charts_by_refusal() -> Vec<(Vec<u8>, Option<Refused>)> {
    let right = counted_chart(6, 2, 23);
    let mut gap = right.clone();
    gap.rules.pop();
    let mut overlap = right.clone();
    overlap.rules.push(right.rules[6]);
    vec![
        (text_of(&right), None),
        (b"".to_vec(), Some((17, 0, 0))),
        (text_of(&gap), Some((18, 5, 3))),
        (text_of(&overlap), Some((19, 1, 2))),
    ]
}

/// Claims for a chart of 23 pairs and two flags, with what each is refused by.
fn claims_by_refusal() -> Vec<(Vec<u8>, Option<u32>)> {
    vec![
        (counted_claim(10, 2, 10), None),
        (b"".to_vec(), Some(14)),
        (b"HOA: v1".to_vec(), Some(15)),
        (b"HOA: v1 /*".to_vec(), Some(16)),
        (counted_claim(10, 3, 10), Some(20)),
        (counted_claim(10, 2, 87), Some(21)),
        (counted_claim(10, 3, 87), Some(20)),
    ]
}

/// Every way to have several reasons: the chart goes before the claim, and both
/// before what they are together.
fn building_by_two_reasons() -> Rows {
    let mut rows = Rows::new();
    for (output, short) in [(OUTPUT, None), (OUTPUT - 1, Some((11, 0, 0)))] {
        for (workers, out_of_range) in [(1, None), (0, Some((5, 0, 0)))] {
            for (chart, of_chart) in charts_by_refusal() {
                for (claim, of_claim) in claims_by_refusal() {
                    let of_claim = of_claim.map(|refusal| (refusal, 0, 0));
                    let first = short.or(out_of_range).or(of_chart).or(of_claim);
                    if let Some(first) = first {
                        let call = build(&chart, &claim, workers);
                        rows.push((Call { output, ..call }, Err(first)));
                    }
                }
            }
        }
    }
    rows
}

/// The same for the listing, which judges the answer last.
fn listing_by_two_reasons() -> Rows {
    let overlong = vec![b'x'; OUTPUT + 1];
    let false_lasso = lasso(&[], &[999_999_999]);
    let answers: [(&[u8], u32); 4] = [
        (&overlong, 1),
        (b"version x\n3", 3),
        (b"", 12),
        (false_lasso.as_bytes(), 13),
    ];
    let mut rows = Rows::new();
    for (output, short) in [(OUTPUT, None), (OUTPUT - 1, Some((11, 0, 0)))] {
        for (chart, of_chart) in charts_by_refusal() {
            for (claim, of_claim) in claims_by_refusal() {
                for (answer, of_answer) in answers {
                    let of_parts = of_chart.or(of_claim.map(|refusal| (refusal, 0, 0)));
                    let first = short.or(of_parts).unwrap_or((of_answer, 0, 0));
                    let call = list(&chart, &claim, answer);
                    rows.push((Call { output, ..call }, Err(first)));
                }
            }
        }
    }
    rows
}

/// The case of a counted chart and claim: an edge stands where mode and state
/// both go ahead by few enough.
fn counted_case(modes: usize, pairs: usize, states: usize, moves: usize) -> Want {
    let ahead = |from: usize, to: usize, of: usize| (to + of - from) % of;
    let share = |all: usize, of: usize, from: usize| all / of + usize::from(from < all % of);
    let vertices = modes * states;
    let mut edges = Vec::new();
    for from in 0..vertices {
        for to in 0..vertices {
            let (mode, state) = (from / states, from % states);
            let modes_ahead = ahead(mode, to / states, modes);
            let states_ahead = ahead(state, to % states, states);
            if modes_ahead < share(pairs, modes, mode) && states_ahead < share(moves, states, state)
            {
                edges.push((from, to));
            }
        }
    }
    let mark = |vertex: usize| if vertex % states % 2 == 1 { '1' } else { '0' };
    case_file(0, &(0..vertices).map(mark).collect::<String>(), &edges)
}

/// At most 2,000 edges, counted as they stand in the case.
fn edges() -> Rows {
    let mut rows = Rows::new();
    for (modes, flags, pairs, states, moves) in [
        (5, 2, 20, 10, 100),
        (32, 8, 40, 15, 50),
        (6, 2, 23, 10, 87),
        (32, 8, 69, 15, 29),
        // Edges that are few in 16 bits, and the most that there can be.
        (32, 4, 512, 15, 129),
        (32, 4, 512, 15, 225),
    ] {
        let chart = text_of(&counted_chart(modes, flags, pairs));
        let want = if pairs * moves <= 2_000 {
            counted_case(modes, pairs, states, moves)
        } else {
            refused(21)
        };
        let claim = counted_claim(states, flags, moves);
        rows.push((build(&chart, &claim, 1), want.clone()));
        rows.push((
            build(&chart, &split_claim(states, flags, moves), 1),
            want.clone(),
        ));
        let of_answer = if want.is_ok() {
            want.and(refused(12))
        } else {
            want
        };
        rows.push((list(&chart, &claim, b""), of_answer));
    }
    rows
}

/// Answers to the example, judged as the checker does. An "empty" that passes
/// leaves nothing.
fn answers() -> Rows {
    let mut overlong = EXAMPLE_ANSWER.as_bytes().to_vec();
    overlong.resize(OUTPUT + 1, b'\n');
    let mut rows = Rows::new();
    let mut row = |answer: &[u8], refusal| rows.push((example_steps(answer), refused(refusal)));
    row(&overlong, 1);
    row(&overlong[1..], 12);
    row(&overlong[..OUTPUT], 12);
    for (old, new, refusal) in [
        ("version v", "verdict v", 12),
        ("2 lasso", "3 lasso", 3),
        ("2 lasso", "02 lasso", 12),
        ("lasso 1 1 0", "lasso 2 0 0", 12),
        ("lasso 1 1 0", "lasso 1 1 1", 12),
        ("lasso 1 1 0", "lasso 501 1 0", 12),
        ("lasso 1 1 0", "empty 0 0 2", 12),
        ("edge\n1", "edge\n12", 13),
        ("edge\n1\n4\n", "edge\n1\n4", 12),
        ("edge\n1\n4\n", "edge\n1\n4\n4\n", 12),
        ("edge\n1\n4\n", "edge\n1\n11\n", 13),
        ("edge\n1\n4\n", "edge\n0\n0\n", 13),
        ("edge\n1\n4\n", "edge\n7\n4\n", 13),
        ("edge\n1\n4\n", "edge\n1\n5\n", 13),
    ] {
        row(EXAMPLE_ANSWER.replace(old, new).as_bytes(), refusal);
    }
    row(empty(&["0 0", "1 -1", "2 0", "3 -1"]).as_bytes(), 13);
    row(empty(&["0 0", "4 0"]).as_bytes(), 13);
    rows.extend(empty_answers());
    rows
}

/// To a claim that is never accepting, and to one that leaves its mark.
fn empty_answers() -> Rows {
    let never = claim_of(0, 2, &["[t] 0 [!1] 1", "[!1] 1"]);
    let once = claim_of(0, 2, &["{0} [t] 1", "[t] 1"]);
    let rows: [(&[u8], &[&str], Want); 6] = [
        (&never, &["0 0", "1 0", "2 0", "3 0"], Ok(vec![])),
        (&never, &["0 7", "1 -7", "2 7", "3 -7"], Ok(vec![])),
        (&never, &["0 0", "1 0", "2 0"], refused(13)),
        (&never, &["0 0", "1 0", "2 0", "3 -0"], refused(12)),
        (&once, &["0 0", "1 -1", "3 -1"], Ok(vec![])),
        (&once, &["0 0", "1 0", "3 -1"], refused(13)),
    ];
    rows.map(|(claim, lines, want)| {
        let call = list(EXAMPLE_CHART.as_bytes(), claim, empty(lines).as_bytes());
        (call, want)
    })
    .into()
}

/// A line for each edge, stem first, by the vertex that it leaves.
fn lines() -> Rows {
    let all: [(&[usize], &[usize], &str); 6] = [
        (&[1], &[4], EXAMPLE_STEPS),
        (&[1, 4], &[4, 4], "Hold watch\nHold 1\nHold 1\nHold 1\n"),
        (&[3], &[11], "Hold watch\nClimb 1\n"),
        (&[3], &[10, 4, 5], "Hold watch\nClimb 1\nHold 1\nHold 1\n"),
        (
            &[0, 2, 8, 7],
            &[4],
            "Hold watch\nHold watch\nClimb watch\nClimb watch\nHold 1\n",
        ),
        (
            &[2, 6, 1, 5],
            &[10, 5],
            "Hold watch\nClimb watch\nHold watch\nHold 1\nClimb 1\nHold 1\n",
        ),
    ];
    let mut rows: Rows = all
        .map(|(stem, cycle, text)| {
            (
                example_steps(lasso(stem, cycle).as_bytes()),
                Ok(text.into()),
            )
        })
        .into();
    let (mut stem, cycle) = (vec![0; 500], vec![4; 500]);
    stem[499] = 1;
    let text = "Hold watch\n".repeat(500) + &"Hold 1\n".repeat(500);
    rows.push((
        example_steps(lasso(&stem, &cycle).as_bytes()),
        Ok(text.into_bytes()),
    ));
    rows
}

/// Names as they are stored, without the quotes; a number where there is none.
fn names() -> Rows {
    let longest = "n".repeat(32);
    let quoted = format!("\"{longest}\"");
    let mut rows = Rows::new();
    for (mode, written, shown) in [
        ("a", "\"\"", ""),
        ("a", "", "0"),
        ("7", "\"0\"", "0"),
        ("A1", "\"low pack\"", "low pack"),
        ("A1", "\" \"", " "),
        ("z", r#""\"low\"""#, r#"\"low\""#),
        ("z", r#""\\""#, r"\\"),
        ("z", r#""\n\x""#, r"\n\x"),
        ("z", "\"\t\r/*@\"", "\t\r/*@"),
        ("z", "\"State: 0\"", "State: 0"),
        ("Az09Az09Az09Az09", &quoted, &longest),
    ] {
        let chart = chart("1 1 0 1", mode, "0 0 0 0");
        let claim = claim_of(0, 1, &[format!("{written} {{0}} [t] 0")]);
        for (stem, cycle) in [(0, 1), (2, 1), (500, 500)] {
            let answer = lasso(&vec![0; stem], &vec![0; cycle]);
            let text = format!("{mode} {shown}\n").repeat(stem + cycle);
            rows.push((
                list(&chart, &claim, answer.as_bytes()),
                Ok(text.into_bytes()),
            ));
        }
    }
    rows.push(the_last_state());
    rows
}

/// An unnamed state of two digits among named ones, and modes of one name.
fn the_last_state() -> (Call, Want) {
    let mut lines: Vec<String> = (0..15)
        .map(|state| format!("\"s{state}\" [t] 14"))
        .collect();
    lines[14] = "{0} [t] 14".to_owned();
    let chart = chart("1 2 1 1", "Hold Hold", "0 0 0 1, 1 0 0 0");
    let claim = claim_of(3, 1, &lines);
    // Edge v leaves vertex v: of the 30, 18 is the source.
    let answer = lasso(&[18], &[14, 29]);
    let text = "Hold s3\nHold 14\nHold 14\n";
    (list(&chart, &claim, answer.as_bytes()), Ok(text.into()))
}

/// A pair accepts only where the claim goes on. The flag leads from A to B, which
/// stays.
fn stopped_claims() -> Rows {
    let chart = chart("1 2 0 1", "A B", "0 1 0 0, 0 1 1 1, 1 0 0 1");
    let rows: [(&[&str], &str, &[_]); 5] = [
        (&["{0} [t] 0"], "11", &[(0, 0), (0, 1), (1, 1)]),
        (&["{0}"], "00", &[]),
        (&["{0} [0] 1", "{0}"], "1010", &[(0, 3), (2, 3)]),
        (&["{0} [0] 1 [!0] 1", ""], "1010", &[(0, 1), (0, 3), (2, 3)]),
        (
            &["[t] 1", "{0} [0 & !0] 1"],
            "0000",
            &[(0, 1), (0, 3), (2, 3)],
        ),
    ];
    rows.map(|(lines, marks, edges)| {
        (
            build(&chart, &claim_of(0, 1, lines), 1),
            case_file(0, marks, edges),
        )
    })
    .into()
}

/// Answers of each version to the example's chart with a claim that stops:
/// vertices 1 and 3 rest, by edges 8 and 9, and do not accept. So both versions
/// show the same; but those two edges are told as 13 on their line in version 1
/// alone.
fn versions() -> Rows {
    let stops = claim_of(0, 2, &["[t] 0 [!1] 1", "{0}"]);
    let mut rows = Rows::new();
    let mut row = |version: &str, answer: String, want: Want| {
        let answer = with_version(answer.as_bytes(), version);
        let call = list(EXAMPLE_CHART.as_bytes(), &stops, &answer);
        rows.push((call, want));
    };
    for version in ["1", "2"] {
        let reached = ["0 0", "1 0", "2 0", "3 0"];
        row(version, empty(&reached), Ok(vec![]));
        row(version, empty(&reached[..3]), refused(13));
        for edge in [0, 7, 8, 9, 10] {
            row(version, lasso(&[1], &[edge]), refused(13));
            let told_on_its_line = edge > if version == "1" { 7 } else { 9 };
            let refusal = if told_on_its_line { 13 } else { 12 };
            row(version, lasso(&[1], &[edge]) + "x", refused(refusal));
        }
    }
    for (version, refusal) in [("0", 3), ("3", 3), ("10", 3), ("01", 12), ("02", 12)] {
        row(version, empty(&["0 0"]), refused(refusal));
    }
    rows.push((
        example_steps(&with_version(EXAMPLE_ANSWER.as_bytes(), "1")),
        Ok(EXAMPLE_STEPS.into()),
    ));
    rows
}
