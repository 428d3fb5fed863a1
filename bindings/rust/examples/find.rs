//! `find CASE`: runs a case file by rounds, has the library check its own answer, and prints the answer and what the
//! check says. Exit status: 0 the answer passed, 1 refused, 2 trouble.

use std::fs::File;
use std::io::{self, Read, Write};
use std::process::ExitCode;

use rezkundo::{Error, LEAST_OUTPUT, LEAST_WORK, LONGEST_FILE};

const PASSED: u8 = 0;
const REFUSED: u8 = 1;
const TROUBLE: u8 = 2;

fn main() -> ExitCode {
    let [_, name] = &std::env::args_os().collect::<Vec<_>>()[..] else {
        return trouble("usage: find CASE");
    };
    let text = match read(name) {
        Ok(text) => text,
        Err(error) => return trouble(&format!("{}: {error}", name.display())),
    };
    let (printed, result) = find(&text);
    let mut out = io::stdout();
    if let Err(error) = out.write_all(&printed).and_then(|()| out.flush()) {
        return trouble(&format!("standard output: {error}"));
    }
    match result {
        Ok(status) => ExitCode::from(status),
        Err(what) => trouble(&what),
    }
}

fn trouble(what: &str) -> ExitCode {
    // Where standard error takes nothing, the exit status still says it.
    let _ = writeln!(io::stderr(), "{what}");
    ExitCode::from(TROUBLE)
}

/// One byte more than a case may have, so that a longer one is refused and not cut.
fn read(name: &std::ffi::OsStr) -> io::Result<Vec<u8>> {
    let mut text = Vec::new();
    File::open(name)?
        .take(LONGEST_FILE as u64 + 1)
        .read_to_end(&mut text)?;
    Ok(text)
}

/// What is printed of a case; the exit status, or what the trouble is.
fn find(text: &[u8]) -> (Vec<u8>, Result<u8, String>) {
    let mut output = vec![0; LEAST_OUTPUT];
    let mut work = vec![0; LEAST_WORK];
    let found = match rezkundo::run_rounds(text, &mut output, &mut work) {
        Ok(found) => found,
        Err(error) => return no_verdict("", error),
    };
    output.truncate(found.written);
    let (line, result) = match rezkundo::check_answer(text, &output) {
        Ok(verdict) if verdict == found.verdict => {
            (format!("check passed {verdict}\n").into_bytes(), Ok(PASSED))
        }
        Ok(_) => (Vec::new(), Err("run and check differ".to_owned())),
        Err(error) => no_verdict("check ", error),
    };
    output.extend(line);
    (output, result)
}

fn no_verdict(before: &str, error: Error) -> (Vec<u8>, Result<u8, String>) {
    match error {
        Error::Refused { .. } => (format!("{before}{error}\n").into_bytes(), Ok(REFUSED)),
        Error::Unknown(_) => (Vec::new(), Err(error.to_string())),
    }
}
