//! The table for a reader: the library's beside one in plain Rust. It does for
//! what is built or listed, too.

/// A text with a name for the table.
pub struct Text {
    pub name: &'static str,
    pub text: Vec<u8>,
}

/// What a text gets, and the microseconds of both readers; none of the
/// library's where it is not there.
pub struct Measured {
    pub refusal: u32,
    pub library: Option<f64>,
    pub plain: f64,
}

/// Measures one text after the other and prints a row for each.
pub fn print(kind: &str, texts: &[Text], measured: impl Fn(&[u8]) -> Measured) {
    print_heading(kind, "bytes");
    for text in texts {
        print_row(text.name, text.text.len(), &measured(&text.text));
    }
}

/// What the rows are about, and which bytes they count.
pub fn print_heading(kind: &str, bytes: &str) {
    println!(
        "{kind:<34}{bytes:>7}{:>9}{:>12}{:>11}{:>10}",
        "refusal", "library/us", "plain/us", "l/plain"
    );
}

pub fn print_row(name: &str, bytes: usize, measured: &Measured) {
    let Measured {
        refusal,
        library,
        plain,
    } = measured;
    let ratio = library.map_or("-".to_owned(), |library| format!("{:.2}", library / plain));
    let library = library.map_or("-".to_owned(), |library| format!("{library:.1}"));
    println!("{name:<34}{bytes:>7}{refusal:>9}{library:>12}{plain:>11.1}{ratio:>10}");
}
