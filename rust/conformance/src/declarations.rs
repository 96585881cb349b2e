//! Functions and structs of the header, of Rust and of Rattle, each as C declares it.

use crate::files::read;

/// A type of Rust or Rattle as C writes it.
fn in_c(type_name: &str) -> String {
    match type_name {
        "usize" => "size_t".to_string(),
        "u32" => "uint32_t".to_string(),
        "i32" => "int32_t".to_string(),
        "i64" => "int64_t".to_string(),
        "u8" => "uint8_t".to_string(),
        "f32" => "float".to_string(),
        _ if type_name.starts_with("straightener_") => type_name.to_string(),
        _ => with_underlines(type_name.trim_start_matches("Flat")),
    }
}

/// The name in C of a struct of Rattle: `ReadingAnswer` is `straightener_reading_answer`.
fn with_underlines(name: &str) -> String {
    let letter =
        |c: char| if c.is_uppercase() { format!("_{}", c.to_ascii_lowercase()) } else { c.to_string() };
    format!("straightener{}", name.chars().map(letter).collect::<String>())
}

/// A parameter or a field as C declares it; a slice is a pointer and a length, and an array has its length behind its
/// name.
fn declared(name: &str, type_name: &str) -> String {
    let slice = |part: &str| format!("{} *{name}, size_t {name}_len", in_c(part.trim_matches(['[', ']'])));
    if let Some(part) = type_name.strip_prefix("&mut ") {
        slice(part)
    } else if let Some(part) = type_name.strip_prefix('&') {
        format!("const {}", slice(part))
    } else if let Some(part) = type_name.strip_prefix("*mut ") {
        format!("{} *{name}", in_c(part))
    } else if let Some(part) = type_name.strip_prefix("*const ") {
        format!("const {} *{name}", in_c(part))
    } else if let Some((part, times)) = type_name.trim_matches(['[', ']']).split_once("; ") {
        format!("{} {name}[{times}]", in_c(part))
    } else {
        format!("{} {name}", in_c(type_name))
    }
}

/// The declarations of a list such as `width: usize, picture: &[i32]`.
fn declarations(list: &str) -> String {
    let parts = list.split(',').map(str::trim).filter_map(|part| part.split_once(": "));
    parts.map(|(name, type_name)| declared(name, type_name)).collect::<Vec<_>>().join(", ")
}

/// The functions of a file of Rust or Rattle that stand behind some words.
pub fn prototypes(path: &str, before: &str) -> Vec<String> {
    let prototype = |rest: &str| {
        let (name, rest) = rest.split_once('(').expect("a bracket");
        let (list, rest) = rest.split_once(") -> ").expect("what it answers");
        let answer = rest.split([' ', ';', '\n']).next().expect("a type");
        format!("{} {name}({})", in_c(answer), declarations(list))
    };
    read(path).split(before).skip(1).map(prototype).collect()
}

/// The structs of a file of Rust or Rattle.
pub fn structs(path: &str) -> Vec<String> {
    let fields =
        |body: &str| body.lines().filter_map(|line| line.trim().strip_prefix("pub ")).collect::<String>();
    let declared = |rest: &str| {
        let (name, rest) = rest.split_once(" {").expect("a struct");
        let body = rest.split('}').next().expect("its end");
        format!("{}: {}", in_c(name), declarations(&fields(body)))
    };
    read(path).split("pub struct ").skip(1).map(declared).collect()
}

/// The functions that the header declares.
pub fn prototypes_of_the_header() -> Vec<String> {
    let header = read("include/straightener.h");
    let below_the_words = header.split("straightener_words(uint32_t number)").nth(1).expect("the words");
    let code = below_the_words.split("*/").map(|part| part.split("/*").next().unwrap_or_default());
    let code = code.collect::<String>().split_whitespace().collect::<Vec<_>>().join(" ");
    code.split(';').map(str::trim).filter(|part| part.ends_with(')')).map(str::to_string).collect()
}

/// The structs that the header declares.
pub fn structs_of_the_header() -> Vec<String> {
    let declared = |rest: &str| {
        let (fields, rest) = rest.split_once("} ").expect("its end");
        let fields: Vec<_> = fields.split(';').map(str::trim).filter(|field| !field.is_empty()).collect();
        format!("{}: {}", rest.split(';').next().expect("its name"), fields.join(", "))
    };
    read("include/straightener.h").split("typedef struct {").skip(1).map(declared).collect()
}
