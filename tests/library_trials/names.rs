//! Prints what the Rust binding names, and where what comes of a run, a claim, a chart and what is built of both has its
//! fields, as the other bindings' trials do.

use std::mem::{offset_of, size_of, size_of_val};

use rezkundo::{
    Built, Charted, Claim, LEAST_CASE, LEAST_OUTPUT, LEAST_STEPS, LEAST_WORK, LONGEST_CLAIM,
    LONGEST_FILE, LONGEST_NAME, MOST_FLAGS, MOST_MODES, MOST_RULES, MOST_STATES, Outcome, Refusal,
    VERSION, Verdict, version,
};

fn main() {
    println!("library {}", version());
    println!("VERSION {VERSION}\nLONGEST_FILE {LONGEST_FILE}");
    println!("LEAST_OUTPUT {LEAST_OUTPUT}\nLEAST_WORK {LEAST_WORK}");
    println!("MOST_STATES {MOST_STATES}\nLONGEST_CLAIM {LONGEST_CLAIM}");
    println!("MOST_MODES {MOST_MODES}\nMOST_FLAGS {MOST_FLAGS}");
    println!("MOST_RULES {MOST_RULES}\nLONGEST_NAME {LONGEST_NAME}");
    println!("LEAST_CASE {LEAST_CASE}\nLEAST_STEPS {LEAST_STEPS}");
    for verdict in [Verdict::Lasso, Verdict::Empty] {
        println!("verdict {} {}", verdict.number(), in_capitals(&verdict));
    }
    for refusal in Refusal::ALL {
        println!("refusal {} {}", refusal.number(), in_capitals(&refusal));
    }
    print_layout();
}

macro_rules! print_fields {
    ($kind:ident: $($name:ident)*) => {$(
        let size = size_of_val(&$kind::default().$name);
        println!("field {} at {}, {size} bytes", stringify!($name), offset_of!($kind, $name));
    )*};
}

fn print_layout() {
    println!("outcome of {} bytes", size_of::<Outcome>());
    print_fields! { Outcome: refusal verdict acts written sent delivered joined }
    println!("claim of {} bytes", size_of::<Claim>());
    print_fields! { Claim: refusal states start propositions accepting name_at name_length }
    println!("charted of {} bytes", size_of::<Charted>());
    print_fields! { Charted: refusal mode combination }
    println!("built of {} bytes", size_of::<Built>());
    print_fields! { Built: refusal mode combination written }
}

/// `TooLong` as `TOO_LONG`.
fn in_capitals(name: &dyn std::fmt::Debug) -> String {
    let mut capitals = String::new();
    for letter in format!("{name:?}").chars() {
        if letter.is_ascii_uppercase() && !capitals.is_empty() {
            capitals.push('_');
        }
        capitals.push(letter.to_ascii_uppercase());
    }
    capitals
}
