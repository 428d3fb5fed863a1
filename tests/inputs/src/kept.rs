//! The bench runs K1 to K11 that the paper keeps, with their outcomes as the
//! paper and the request on rest loops have them, two lists that leave messages
//! in cells, and D, a case with three rest loops. The tallies were counted by
//! hand, and so was D.

use reference::entries::Outcome;
use reference::run::Tallies;

pub const K1: &str = "version vertices edges source workers
1 3 3 0 2
vertex accepting owner
0 0 0
1 1 1
2 0 0
from to
0 1
1 2
2 1
";

const K1_LASSO: &str = "version verdict stem cycle reached\n2 lasso 1 2 0\nedge\n0\n1\n2\n";
const K2_EMPTY: &str =
    "version verdict stem cycle reached\n2 empty 0 0 3\nvertex distance\n0 0\n1 -1\n2 -1\n";
const SELF_LASSO: &str = "version verdict stem cycle reached\n2 lasso 0 1 0\nedge\n0\n";
const D_LASSO: &str = "version verdict stem cycle reached\n2 lasso 1 1 0\nedge\n0\n2\n";
const SOURCE_ONLY: &str =
    "version verdict stem cycle reached\n2 empty 0 0 1\nvertex distance\n0 0\n";

pub const K4: &str = "version vertices edges source workers
1 1 0 0 1
vertex accepting owner
0 1 0
from to
";

pub const K6: &str = "version vertices edges source workers
1 2 1 0 1
vertex accepting owner
0 0 0
1 1 0
from to
1 1
";

/// Only vertex 1 has an edge, so 0, 2 and 3 rest: their loops are edges 1, 2
/// and 3.
pub const D: &str = "version vertices edges source workers
1 4 1 1 1
vertex accepting owner
0 0 0
1 0 0
2 1 0
3 0 0
from to
1 2
";

/// A case by whose lists an offer joins a waiting message: each vertex has its
/// own owner, and 0 can be scanned a second time before the delivery on edge 1.
pub const J: &str = "version vertices edges source workers
1 3 4 0 3
vertex accepting owner
0 0 0
1 1 1
2 0 2
from to
0 1
0 2
1 0
1 2
";

/// One run of the table.
pub struct KeptRun {
    pub name: &'static str,
    pub text: String,
    /// The list of acts; nothing for a run by rounds.
    pub acts: Option<Vec<u32>>,
    pub outcome: Outcome,
    pub answer: &'static str,
}

/// The whole table.
pub fn kept_runs() -> Vec<KeptRun> {
    let k2 = K1.replace("0 0 0\n1 1 1", "0 1 0\n1 0 1");
    let k3 = K4.replace("1 1 0 0 1", "1 1 1 0 1") + "0 0\n";
    let k5 = k3.replace("0 1 0\nfrom", "0 0 0\nfrom");
    let k8 = K1
        .replace("1 3 3 0 2", "1 3 3 0 1")
        .replace("1 1 1", "1 1 0");
    let k10 = K1.replace("1 3 3 0 2", "2 3 3 0 2");
    let k11 = K1
        .replace("1 3 3 0 2", "1 3 4 0 2")
        .replace("1 2\n2 1", "1 2\n1 2\n2 1");
    let k1 = K1.to_owned();
    let j = J.to_owned();
    let d = D.to_owned();
    let out_of_range = |name, text, acts: &[u32]| refused(name, text, 9).by_list(acts);
    vec![
        ended("K1", k1.clone(), 1, 8, K1_LASSO).tallied(4, 4, 0),
        ended("K2", k2, 2, 6, K2_EMPTY).tallied(3, 3, 0),
        ended("K3", k3, 1, 2, SELF_LASSO),
        ended("K4", K4.to_owned(), 1, 2, SELF_LASSO),
        ended("K5", k5, 2, 1, SOURCE_ONLY),
        ended("K6", K6.to_owned(), 2, 1, SOURCE_ONLY),
        unended("K7", k1.clone(), &[], 0),
        ended("K8", k8, 1, 4, K1_LASSO),
        unended("K9", k1.clone(), &[2], 0),
        refused("K10", k10, 3),
        refused("K11", k11, 8),
        unended("K1, act 0", k1, &[0], 1).tallied(1, 0, 0),
        unended("J", j, &[0, 3, 1, 5, 0], 5).tallied(6, 2, 1),
        ended("D", d.clone(), 1, 3, D_LASSO),
        ended("D, three turns", d.clone(), 1, 3, D_LASSO).by_list(&[0, 1, 0, 0]),
        unended("D, two turns", d.clone(), &[0, 1, 0], 2),
        out_of_range("D, act 2", d, &[2]),
        out_of_range("K4, act 1", K4.to_owned(), &[0, 0, 1]),
    ]
}

impl KeptRun {
    fn by_list(mut self, acts: &[u32]) -> Self {
        self.acts = Some(acts.to_vec());
        self
    }

    /// The same run with these tallies; without them all are 0.
    fn tallied(mut self, sent: u32, delivered: u32, joined: u32) -> Self {
        self.outcome.tallies = Tallies {
            sent,
            delivered,
            joined,
        };
        self
    }
}

fn ended(
    name: &'static str,
    text: String,
    verdict: u32,
    acts: u64,
    answer: &'static str,
) -> KeptRun {
    let outcome = Outcome {
        verdict,
        acts,
        written: answer.len() as u32,
        ..Outcome::default()
    };
    KeptRun {
        name,
        text,
        acts: None,
        outcome,
        answer,
    }
}

fn refused(name: &'static str, text: String, refusal: u32) -> KeptRun {
    KeptRun {
        name,
        text,
        acts: None,
        outcome: Outcome {
            refusal,
            ..Outcome::default()
        },
        answer: "",
    }
}

/// A list that runs out after so many acts that did something.
fn unended(name: &'static str, text: String, list: &[u32], acts: u64) -> KeptRun {
    let mut run = refused(name, text, 10).by_list(list);
    run.outcome.acts = acts;
    run
}
