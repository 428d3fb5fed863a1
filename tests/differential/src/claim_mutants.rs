//! The mutants that read claims with one fault each.

use std::borrow::Cow;

use reference::claim::{Claim, LIMITS, read_tokens};
use reference::claim_label::Label;
use reference::claim_tokens::{Fault, Kind, Limits, Token};
use reference::refusal::Refusal;

use crate::mutants::{Faulty, Mutant, claim_mutant};

/// Every mutant of these.
pub fn claim_mutants() -> Vec<Mutant> {
    vec![
        claim_mutant("& and | swapped in binding", BindingSwapped),
        claim_mutant("label 17 deep taken", SeventeenDeep),
        claim_mutant("name of 33 bytes taken", LongName),
        claim_mutant("start not below the states taken", StartNotBelow),
        claim_mutant("16 for an alias anywhere", AliasAnywhere),
        claim_mutant("15 for a second start", SecondStart),
        claim_mutant("text of 16,385 bytes taken", LongText),
        claim_mutant("Inf(1) taken", OtherSet),
        claim_mutant("State: past the last line told later", LineToldLater),
        claim_mutant("proposition names not counted", NamesNotCounted),
        claim_mutant("escaped quote ends a string", EscapedQuoteEnds),
        claim_mutant("mark {1} taken", OtherMark),
        claim_mutant("14 judged on 16,384 bytes", OpeningInTime),
        claim_mutant("name told by its own last byte", NameToldEarly),
        claim_mutant("first proposition in the highest bit", BitsReversed),
        claim_mutant("empty name taken for none", EmptyNameForNone),
        claim_mutant("edge mark skipped", EdgeMarkSkipped),
        claim_mutant("line feed in a name taken", LineFeedInName),
    ]
}

struct SeventeenDeep;
impl Faulty for SeventeenDeep {
    fn claim_limits(&self) -> Limits {
        Limits {
            depth: LIMITS.depth + 1,
            ..LIMITS
        }
    }
}

struct LongName;
impl Faulty for LongName {
    fn claim_limits(&self) -> Limits {
        Limits {
            name_bytes: LIMITS.name_bytes + 1,
            ..LIMITS
        }
    }
}

struct LongText;
impl Faulty for LongText {
    fn claim_limits(&self) -> Limits {
        Limits {
            bytes: LIMITS.bytes + 1,
            ..LIMITS
        }
    }
}

/// With `&` and `|` swapped in the text and again in the tree, each binds as
/// the other should.
struct BindingSwapped;
impl Faulty for BindingSwapped {
    fn judge(&self, tokens: &[Token], read: Result<Claim, Fault>) -> Result<Claim, Refusal> {
        read.map_err(|fault| fault.refusal)?;
        let mut tokens = tokens.to_vec();
        for token in &mut tokens {
            token.kind = match token.kind {
                Kind::Symbol(b'&') => Kind::Symbol(b'|'),
                Kind::Symbol(b'|') => Kind::Symbol(b'&'),
                kind => kind,
            };
        }
        let claim = read_tokens(&tokens, LIMITS).map_err(|fault| fault.refusal)?;
        Ok(with_labels(claim, &swapped))
    }
}

/// The claim with each label changed.
fn with_labels(mut claim: Claim, change: &dyn Fn(&Label) -> Label) -> Claim {
    for edge in claim.states.iter_mut().flat_map(|state| &mut state.edges) {
        edge.label = change(&edge.label);
    }
    claim
}

fn swapped(label: &Label) -> Label {
    match label {
        Label::Not(label) => Label::Not(Box::new(swapped(label))),
        Label::All(labels) => Label::Any(labels.iter().map(swapped).collect()),
        Label::Any(labels) => Label::All(labels.iter().map(swapped).collect()),
        label => label.clone(),
    }
}

struct BitsReversed;
impl Faulty for BitsReversed {
    fn judge(&self, _tokens: &[Token], read: Result<Claim, Fault>) -> Result<Claim, Refusal> {
        let claim = read.map_err(|fault| fault.refusal)?;
        let count = claim.propositions;
        Ok(with_labels(claim, &|label| reversed(label, count)))
    }
}

fn reversed(label: &Label, count: u32) -> Label {
    let reversed_all =
        |labels: &[Label]| labels.iter().map(|label| reversed(label, count)).collect();
    match label {
        Label::Constant(constant) => Label::Constant(*constant),
        Label::Proposition(number) => Label::Proposition(count - 1 - number),
        Label::Not(label) => Label::Not(Box::new(reversed(label, count))),
        Label::All(labels) => Label::All(reversed_all(labels)),
        Label::Any(labels) => Label::Any(reversed_all(labels)),
    }
}

struct EmptyNameForNone;
impl Faulty for EmptyNameForNone {
    fn judge(&self, _tokens: &[Token], read: Result<Claim, Fault>) -> Result<Claim, Refusal> {
        let mut claim = read.map_err(|fault| fault.refusal)?;
        for state in &mut claim.states {
            state.name = state.name.take().filter(|name| !name.is_empty());
        }
        Ok(claim)
    }
}

struct AliasAnywhere;
impl Faulty for AliasAnywhere {
    fn judge(&self, tokens: &[Token], read: Result<Claim, Fault>) -> Result<Claim, Refusal> {
        read.map_err(|fault| {
            let token = tokens[fault.at];
            match (fault.refusal, token.kind) {
                (Refusal::ClaimWrong, Kind::Alias) if token.told <= LIMITS.bytes => {
                    Refusal::ClaimNotTaken
                }
                (refusal, _) => refusal,
            }
        })
    }
}

struct SecondStart;
impl Faulty for SecondStart {
    fn judge(&self, tokens: &[Token], read: Result<Claim, Fault>) -> Result<Claim, Refusal> {
        read.map_err(|fault| match (fault.refusal, tokens[fault.at].kind) {
            (Refusal::ClaimNotTaken, Kind::Header(b"Start")) => Refusal::ClaimWrong,
            (refusal, _) => refusal,
        })
    }
}

/// Goes on to the next token where no line is left.
struct LineToldLater;
impl Faulty for LineToldLater {
    fn judge(&self, tokens: &[Token], read: Result<Claim, Fault>) -> Result<Claim, Refusal> {
        read.map_err(|fault| {
            let in_body = tokens[..fault.at]
                .iter()
                .any(|token| token.kind == Kind::BodyMark);
            let line = in_body && tokens[fault.at].kind == Kind::Header(b"State");
            match tokens.get(fault.at + 1).map(|token| token.kind) {
                Some(Kind::Symbol(b'[') | Kind::Comment) if line => Refusal::ClaimNotTaken,
                _ => fault.refusal,
            }
        })
    }
}

/// Gives up on the opening where the longest text ends.
struct OpeningInTime;
impl Faulty for OpeningInTime {
    fn judge(&self, tokens: &[Token], read: Result<Claim, Fault>) -> Result<Claim, Refusal> {
        let version = tokens.get(1);
        if version.is_none_or(|version| version.told > LIMITS.bytes) {
            return Err(Refusal::NotAClaim);
        }
        read.map_err(|fault| fault.refusal)
    }
}

struct EscapedQuoteEnds;
impl Faulty for EscapedQuoteEnds {
    fn claim_text<'a>(&self, text: &'a [u8]) -> Cow<'a, [u8]> {
        let unescaped = text
            .iter()
            .map(|&byte| if byte == b'\\' { b'x' } else { byte });
        unescaped.collect()
    }
}

struct StartNotBelow;
impl Faulty for StartNotBelow {
    fn forgive(&self, tokens: &mut Vec<Token>) {
        let start = after(tokens, &[Kind::Header(b"Start")]);
        for place in start {
            if let Kind::Number(_) = tokens[place].kind {
                tokens[place].kind = Kind::Number(0);
            }
        }
    }
}

struct OtherSet;
impl Faulty for OtherSet {
    fn forgive(&self, tokens: &mut Vec<Token>) {
        for place in after(tokens, &[Kind::Name(b"Inf"), Kind::Symbol(b'(')]) {
            forgive_one(&mut tokens[place]);
        }
    }
}

struct OtherMark;
impl Faulty for OtherMark {
    fn forgive(&self, tokens: &mut Vec<Token>) {
        for place in after(tokens, &[Kind::Symbol(b'{')]) {
            forgive_one(&mut tokens[place]);
        }
    }
}

fn forgive_one(token: &mut Token) {
    if token.kind == Kind::Number(1) {
        token.kind = Kind::Number(0);
    }
}

/// The places of the tokens right after these.
fn after(tokens: &[Token], before: &[Kind]) -> Vec<usize> {
    let kinds: Vec<Kind> = tokens.iter().map(|token| token.kind).collect();
    let ends = before.len()..kinds.len();
    ends.filter(|&end| kinds[..end].ends_with(before)).collect()
}

/// Takes any number of strings for the right one.
struct NamesNotCounted;
impl Faulty for NamesNotCounted {
    fn forgive(&self, tokens: &mut Vec<Token>) {
        let Some(&count) = after(tokens, &[Kind::Header(b"AP")]).first() else {
            return;
        };
        let Kind::Number(names @ 0..=8) = tokens[count].kind else {
            return;
        };
        let first = count + 1;
        let is_name = |token: &&Token| matches!(token.kind, Kind::Text(_));
        let end = first + tokens[first..].iter().take_while(is_name).count();
        let name = Token {
            kind: Kind::Text(b""),
            ..tokens[count]
        };
        tokens.splice(first..end, vec![name; names as usize]);
    }
}

struct NameToldEarly;
impl Faulty for NameToldEarly {
    fn forgive(&self, tokens: &mut Vec<Token>) {
        for token in tokens {
            token.told = token.end;
        }
    }
}

struct EdgeMarkSkipped;
impl Faulty for EdgeMarkSkipped {
    fn forgive(&self, tokens: &mut Vec<Token>) {
        for target in after(tokens, &[Kind::Symbol(b']')]).into_iter().rev() {
            let rest = tokens[target + 1..].iter().map(|token| token.kind);
            let mark: Vec<Kind> = rest.take(3).collect();
            if mark == [Kind::Symbol(b'{'), Kind::Number(0), Kind::Symbol(b'}')] {
                tokens.drain(target + 1..target + 4);
            }
        }
    }
}

struct LineFeedInName;
impl Faulty for LineFeedInName {
    fn forgive(&self, tokens: &mut Vec<Token>) {
        for token in tokens {
            if let Kind::Text(stored) = token.kind
                && stored.len() <= LIMITS.name_bytes
            {
                token.kind = Kind::Text(b"");
            }
        }
    }
}
