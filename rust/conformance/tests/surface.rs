//! The surface for C and Rust: functions, constants, structs and the version are the same wherever they stand.
#![cfg(feature = "library")]

use conformance::c::printed;
use conformance::declarations;
use conformance::files::read;
use conformance::tables::{calls, numbers, order, Number};
use std::mem::{offset_of, size_of};
use straightener::raw;

/// The functions that the header declares, each with the comment before it.
fn declared() -> Vec<(String, String)> {
    let header = read("include/straightener.h");
    let below_the_words = header.split("straightener_words(uint32_t number)").nth(1).expect("the words");
    let mut functions = Vec::new();
    for part in below_the_words.split("/*").skip(1) {
        let (comment, declarations) = part.split_once("*/").expect("a comment ends");
        let comment = comment.replace("\n *", " ").split_whitespace().collect::<Vec<_>>().join(" ");
        for before in declarations.split('(').filter(|_| declarations.contains(");")) {
            let name = before.rsplit([' ', '\n', '*']).next().unwrap_or_default();
            if name.starts_with("straightener_") {
                functions.push((name.to_string(), comment.clone()));
            }
        }
    }
    functions
}

/// The files of the safe layer for Rust.
fn safe_files() -> [String; 8] {
    ["block", "calls", "explanation", "forecast", "quarter", "readings", "setting", "tickets"]
        .map(|file| format!("rust/straightener/src/{file}.rs"))
}

/// The names that stand between some words and a bracket in a file.
fn names(path: &str, before: &str) -> Vec<String> {
    let text = read(path);
    text.split(before).skip(1).filter_map(|rest| rest.split('(').next()).map(str::to_string).collect()
}

/// A list in order of the alphabet.
fn sorted(mut names: Vec<String>) -> Vec<String> {
    names.sort();
    names
}

#[test]
fn functions() {
    let header = sorted(declared().into_iter().map(|(name, _)| name).collect());
    assert_eq!(sorted(names("rust/straightener-sys/src/lib.rs", "pub fn ")), header);
    assert_eq!(sorted(names("crates/exports_c/src/lib.rt", "pub extern \"C\" fn ")), header);
    assert_eq!(sorted(calls().into_iter().flat_map(|call| call.c).collect()), header, "docs/REFUSALS.md");
    let header_text = read("include/straightener.h");
    let index = header_text.split("*/").next().expect("a comment").to_string();
    assert!(header.iter().all(|name| index.contains(name.as_str())), "the header's own list");
}

/// The raw layer has the names of C without their beginning, the safe one those of docs/REFUSALS.md.
#[test]
fn functions_for_rust() {
    let safe: Vec<_> = safe_files().iter().flat_map(|file| names(file, "pub fn ")).collect();
    let raw = names("rust/straightener/src/raw.rs", "pub fn ");
    for call in calls() {
        assert_eq!(call.rust.len(), call.c.len(), "{}", call.name);
        for (name, in_c) in call.rust.iter().zip(&call.c) {
            assert!(safe.contains(name), "{name} is not in the safe layer for Rust");
            let in_raw = in_c.strip_prefix("straightener_").expect("a name of ours").to_string();
            assert!(raw.contains(&in_raw), "{in_raw} is not in the raw layer for Rust");
        }
    }
    assert_eq!(raw.len(), declared().len(), "the raw layer has a function that C has not");
}

#[test]
fn orders_in_the_header() {
    let calls = calls();
    for (name, comment) in declared() {
        let call = calls.iter().find(|call| call.c.contains(&name)).expect("a row of docs/REFUSALS.md");
        let in_list = |c: char| c.is_ascii_digit() || c == ',' || c == ' ';
        let said = comment.split("Refuses under ").nth(1);
        let said = said.map(|rest| order(rest.split(|c| !in_list(c)).next().unwrap_or_default()));
        let nothing = comment.contains("Nothing is refused.").then(Vec::new);
        assert_eq!(said.or(nothing), Some(call.order.clone()), "what the header says of {name}");
    }
}

/// The refusals that a text links to, by their numbers in the text's order.
fn refusals_named(text: &str) -> Vec<u32> {
    let names = text.split("[`Refusal::").skip(1).filter_map(|rest| rest.split('`').next());
    let known = numbers();
    let is_named = |row: &Number, name: &str| row.rust == name || row.in_a_block.as_deref() == Some(name);
    names.map(|name| known.iter().find(|row| is_named(row, name)).expect("a refusal").number).collect()
}

/// Calls whose buffers are their own, so that none of them is too short.
const OWN_BUFFERS: [&str; 2] = ["answer_line", "explain"];

/// What a safe call is said to be refused with, in the order of its numbers; 5, 16 and 17 are left out, since no
/// `Kernel`, no `Quarter` and no `Plane` has a bad number, and 2 where the buffers are the call's own.
#[test]
fn orders_in_the_documentation_for_rust() {
    for call in calls().iter().filter(|call| !call.c.is_empty()) {
        for name in &call.rust {
            let owns_buffers = OWN_BUFFERS.contains(&name.as_str());
            let meets = |number: &u32| ![5, 16, 17].contains(number) && (*number != 2 || !owns_buffers);
            let expected: Vec<u32> = call.order.iter().copied().filter(meets).collect();
            if expected.is_empty() {
                continue;
            }
            let texts = safe_files().map(|file| read(&file));
            let before =
                texts.iter().find_map(|text| text.split_once(&format!("pub fn {name}("))).expect("a call").0;
            let comment = before.rsplit("\n\n").next().expect("its comment");
            let said = comment.split("Refused ").nth(1).expect("what it is refused with");
            let paragraph = said.split("///\n").next().expect("a paragraph");
            assert_eq!(refusals_named(paragraph), expected, "{name}");
        }
    }
}

/// The header calls a buffer `result` where the proved call has `res`: in a contract `result` is what a function answers.
#[test]
fn prototypes() {
    let declared = sorted(declarations::prototypes_of_the_header());
    let proved = declarations::prototypes("crates/exports_c/src/lib.rt", "pub extern \"C\" fn ")
        .into_iter()
        .map(|prototype| prototype.replace("*res,", "*result,").replace(" res_len", " result_len"))
        .collect();
    let for_rust = declarations::prototypes("rust/straightener-sys/src/lib.rs", "pub fn ");
    assert_eq!((sorted(proved), sorted(for_rust)), (declared.clone(), declared));
}

#[test]
fn structs() {
    let declared = sorted(declarations::structs_of_the_header());
    let mut proved = declarations::structs("crates/flat/src/lib.rt");
    let explained = declarations::structs("crates/explanations/src/lib.rt");
    // C and Rust are handed a term as it is.
    proved.extend(explained.into_iter().filter(|term| term.starts_with("straightener_term:")));
    let for_rust = declarations::structs("rust/straightener-sys/src/lib.rs");
    assert_eq!((sorted(proved), sorted(for_rust)), (declared.clone(), declared));
}

/// The constants of a text with whole numbers for values, as `STRAIGHTENER_KEYS = 1` or in a `#define`.
fn constants(text: &str, between: &str) -> Vec<(String, u32)> {
    let parts = text.split("STRAIGHTENER_").skip(1).filter_map(|part| part.split_once(between));
    let parts = parts.filter(|(name, _)| name.chars().all(|c| c.is_ascii_uppercase() || c == '_'));
    let number = |text: &str| text.replace('_', "").split(|c: char| !c.is_ascii_digit()).next()?.parse().ok();
    parts.filter_map(|(name, value)| Some((name.to_string(), number(value)?))).collect()
}

#[test]
fn constants_in_c_and_rust() {
    let header = read("include/straightener.h");
    let mut in_c = constants(&header, " = ");
    in_c.extend(constants(&header, " ").into_iter().filter(|(name, _)| !name.starts_with("VERSION")));
    let sys = read("rust/straightener-sys/src/lib.rs");
    let in_rust = [": u32 = ", ": i32 = ", ": usize = "].map(|between| constants(&sys, between)).concat();
    assert_eq!(in_rust, in_c);
    for row in numbers() {
        let name = row.c.strip_prefix("STRAIGHTENER_").expect("a name of ours").to_string();
        assert!(in_c.contains(&(name, row.number)), "{}", row.c);
    }
    let refusals = in_c.iter().filter(|(name, _)| name.starts_with("REFUSED_")).count();
    assert_eq!(refusals, numbers().len());
}

/// A sample as the documents write it.
fn with_comma(sample: i32) -> String {
    format!("{},{:03}", sample / 1_000, sample % 1_000)
}

/// The numbers of a text that have a comma.
fn with_commas(text: &str) -> Vec<String> {
    let words = text.split(|c: char| !c.is_ascii_digit() && c != ',').map(|word| word.trim_matches(','));
    words.filter(|word| word.contains(',')).map(str::to_string).collect()
}

#[test]
fn bounds_of_a_reading() {
    let (black, white) = (with_comma(straightener::BLACK), with_comma(straightener::WHITE));
    let bounds = [black.clone(), black, white.clone(), white];
    let said =
        declared().into_iter().find(|(name, _)| name == "straightener_reading").expect("the reading").1;
    assert_eq!(with_commas(&said)[..4], bounds, "the header's comment");
    let amendments = read("docs/AMENDMENTS.md");
    let said =
        amendments.lines().find(|line| line.starts_with("- A reading is ")).expect("the amended point");
    assert_eq!(with_commas(said)[..4], bounds, "docs/AMENDMENTS.md");
}

/// Whatever is said to be in parts of a grey is in 128ths of one.
#[test]
fn the_unit_of_a_sample() {
    let others = ["include/straightener.h", "README.md", "rust/straightener-sys/src/lib.rs"];
    let mut said = 0;
    for file in others.map(str::to_string).into_iter().chain(safe_files()) {
        let text = read(&file);
        for before in text.split(" grey").filter(|before| before.ends_with(|c: char| c.is_ascii_digit())) {
            let word = before.rsplit([' ', '\n']).next().unwrap_or_default();
            if let Some(parts) = word.strip_prefix("1/") {
                assert_eq!(parts, "128", "{file}");
                said += 1;
            }
        }
    }
    assert!(said > 3, "the header says in which unit samples are");
}

/// The numbers that a caller hands in beside samples, to stand among them or to be compared with them.
#[test]
fn the_unit_of_a_number_beside_samples() {
    let header = read("include/straightener.h");
    for (name, times) in [("threshold", 1), ("background", 3)] {
        let begin = format!(" *   {name} ");
        let said: Vec<_> = header.lines().filter(|line| line.starts_with(&begin)).collect();
        assert_eq!(said.len(), times, "{name}");
        assert!(said.iter().all(|line| line.contains("units of 1/128 grey")), "{said:?}");
    }
}

/// The layout of a struct as `tests/c/layout.c` prints it: its size and the place of each field.
macro_rules! layout {
    ($name:ident: $($field:ident)+) => {
        [
            format!("{} {}", stringify!($name), size_of::<raw::$name>()),
            $(format!(" {} {}", stringify!($field), offset_of!(raw::$name, $field)),)+
        ]
        .concat()
    };
}

#[test]
fn structs_are_laid_out_alike() {
    let expected = [
        layout!(Setting: kernel cx cy a b border background),
        layout!(Answer: number row column count smallest largest),
        layout!(BlockAnswer: number depth row column count smallest largest),
        layout!(Ticket: width height setting count),
        layout!(Asked: number row column ticket),
        layout!(ForecastAnswer: number row column work count bound),
        layout!(Term: place weight value product),
        layout!(ExplanationAnswer: number row column terms sum divisor quotient),
        layout!(QuarterAnswer: number row column width height),
        layout!(Quarter: number value),
        layout!(Change: number setting),
        layout!(Step: number value),
        layout!(CheckedStep: number row column step),
        layout!(ReadingAnswer: number row column kind greys),
        layout!(LineAnswer: number written),
        layout!(SummaryAnswer: number row column darkest lightest),
    ];
    assert_eq!(printed("layout.c", "cc", &["-std=c11"]).lines().collect::<Vec<_>>(), expected);
    let structs = read("include/straightener.h").matches("typedef struct {").count();
    assert_eq!(structs, expected.len(), "a struct of the header is not held to its layout");
}

#[test]
fn one_version() {
    let version = env!("CARGO_PKG_VERSION");
    let header = read("include/straightener.h");
    let lines = header.lines().filter_map(|line| line.strip_prefix("#define STRAIGHTENER_VERSION"));
    let parts: Vec<_> = version.split('.').collect();
    let expected = [
        format!(" \"{version}\""),
        format!("_MAJOR {}", parts[0]),
        format!("_MINOR {}", parts[1]),
        format!("_PATCH {}", parts[2]),
    ];
    assert_eq!(lines.collect::<Vec<_>>(), expected);
    let changes = read("CHANGELOG.md");
    let newest = changes.lines().find_map(|line| line.strip_prefix("## ")).expect("a newest version");
    assert_eq!(newest.split(' ').next(), Some(version), "the newest version of CHANGELOG.md");
}
