//! The tables of the documents: refusal numbers and calls, each stated once in `docs/REFUSALS.md`.

use crate::files::read;

/// The cells of the table of a document whose first column has this title, row by row.
pub fn table(document: &str, title: &str) -> Vec<Vec<String>> {
    let text = read(document);
    let lines = text.lines().skip_while(|line| !line.starts_with(&format!("| {title} |"))).skip(2);
    let rows = lines.take_while(|line| line.starts_with('|'));
    let cells = |row: &str| row.trim_matches('|').split(" | ").map(|cell| cell.trim().to_string()).collect();
    let table: Vec<Vec<String>> = rows.map(cells).collect();
    assert!(!table.is_empty(), "{document} has no table of {title}");
    table
}

/// What stands in backticks in a cell.
pub fn in_backticks(cell: &str) -> Vec<String> {
    cell.split('`').skip(1).step_by(2).map(str::to_string).collect()
}

/// The numbers of a cell in their order, those in brackets left out; none where nothing is refused.
pub fn order(cell: &str) -> Vec<u32> {
    let outside: String = cell.split('(').map(|part| part.rsplit(')').next().unwrap_or_default()).collect();
    let words = outside.split(|c: char| !c.is_ascii_digit()).filter(|word| !word.is_empty());
    words.map(|word| word.parse().expect("a number")).collect()
}

/// A refusal number.
pub struct Number {
    pub number: u32,
    /// Its constant in C.
    pub c: String,
    /// Its variant in Rust.
    pub rust: String,
    /// The variant of a block, where it is one of its own, with a depth beside its row and column.
    pub in_a_block: Option<String>,
    /// Whether it comes with a row and a column.
    pub placed: bool,
    /// What it says.
    pub words: String,
}

/// The refusal numbers.
pub fn numbers() -> Vec<Number> {
    let code = |cell: &str| cell.trim_matches('`').to_string();
    let variants = |cell: &str| in_backticks(cell).into_iter();
    let rows = table("docs/REFUSALS.md", "Number");
    rows.iter()
        .map(|row| Number {
            number: row[0].parse().expect("a number"),
            c: code(&row[1]),
            rust: variants(&row[2]).next().expect("a variant"),
            in_a_block: variants(&row[2]).nth(1),
            placed: row[3].starts_with("row and column"),
            words: row[4].clone(),
        })
        .collect()
}

/// A call, or some that are refused alike.
pub struct Call {
    pub name: String,
    /// Its functions in C.
    pub c: Vec<String>,
    /// Its functions and methods in Rust.
    pub rust: Vec<String>,
    /// The proved functions beneath.
    pub proved: Vec<String>,
    /// Its numbers in the order in which they are judged.
    pub order: Vec<u32>,
}

/// The calls.
pub fn calls() -> Vec<Call> {
    let rows = table("docs/REFUSALS.md", "Call");
    rows.iter()
        .map(|row| Call {
            name: row[0].clone(),
            c: in_backticks(&row[1]),
            rust: in_backticks(&row[2]),
            proved: in_backticks(&row[3]),
            order: order(&row[4]),
        })
        .collect()
}
