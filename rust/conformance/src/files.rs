//! The files of `vectors/` and of the repository.

use reference::second::Border;
use std::path::PathBuf;
use std::{env, fs, process};

/// A path relative to the repository's folder.
pub fn in_repository(path: &str) -> PathBuf {
    PathBuf::from(env!("CARGO_MANIFEST_DIR")).join("../..").join(path)
}

/// The bytes of a file of the repository.
pub fn bytes_of(path: &str) -> Vec<u8> {
    fs::read(in_repository(path)).unwrap_or_else(|error| panic!("{path}: {error}"))
}

/// The text of a file of the repository.
pub fn read(path: &str) -> String {
    String::from_utf8(bytes_of(path)).unwrap_or_else(|error| panic!("{path}: {error}"))
}

/// A folder of a test's own, outside the repository, which goes with the test.
pub struct Temporary(PathBuf);

impl Temporary {
    /// An empty folder.
    pub fn new(name: &str) -> Temporary {
        let folder = env::temp_dir().join(format!("straightener-{}-{name}", process::id()));
        fs::create_dir_all(&folder).expect("a folder can be made");
        Temporary(folder)
    }

    /// The path of a file or folder in it.
    pub fn path(&self, name: &str) -> PathBuf {
        self.0.join(name)
    }
}

impl Drop for Temporary {
    fn drop(&mut self) {
        // What cannot be removed is left to the system's own sweep.
        let _ = fs::remove_dir_all(&self.0);
    }
}

/// A file that the build makes in the repository's `target` folder; says how to make it if it is missing.
pub fn built(path: &str, command: &str) -> PathBuf {
    let built = in_repository("target").join(path);
    assert!(built.is_file(), "{} is not there; make it by: {command}", built.display());
    built
}

/// The text of a vector file, its runs `{n*text}` written out.
fn text(name: &str) -> String {
    unpacked(&read(&format!("rust/conformance/vectors/{name}")))
}

/// Writes out every run `{n*text}`.
fn unpacked(packed: &str) -> String {
    let mut parts = packed.split('{');
    let mut text = parts.next().unwrap_or_default().to_string();
    for part in parts {
        let (run, rest) = part.split_once('}').expect("a run ends in }");
        let (times, unit) = run.split_once('*').expect("a run has a *");
        text += &unit.repeat(times.parse().expect("a run has a number"));
        text += rest;
    }
    text
}

/// The words of a line of a vector file.
fn words(part: &str) -> Vec<String> {
    part.split_whitespace().map(str::to_string).collect()
}

/// A vector: the words of its input and of its answer.
pub type Vector = (Vec<String>, Vec<String>);

/// The vectors of a file, in which every line has its arrow; `expected` is their number.
pub fn vectors(name: &str, expected: usize) -> Vec<Vector> {
    rows_and_vectors(name, (0, expected)).1
}

/// The lines of a file without an arrow, each as its words, and its vectors; `expected` is the number of each.
pub fn rows_and_vectors(name: &str, expected: (usize, usize)) -> (Vec<Vec<String>>, Vec<Vector>) {
    let (mut rows, mut vectors) = (Vec::new(), Vec::new());
    for line in text(name).lines() {
        match line.split_once(" -> ") {
            None => rows.push(words(line)),
            Some((input, answer)) => vectors.push((words(input), words(answer))),
        }
    }
    assert_eq!((rows.len(), vectors.len()), expected, "{name} is not whole");
    (rows, vectors)
}

/// A list of numbers.
pub fn numbers<T: std::str::FromStr>(words: &[String]) -> Vec<T> {
    words.iter().map(|word| number(word)).collect()
}

/// One number.
pub fn number<T: std::str::FromStr>(word: &str) -> T {
    word.parse().unwrap_or_else(|_| panic!("{word} is not a number of its type"))
}

/// The bits of a float, 8 hexadecimal digits.
pub fn float_bits(word: &str) -> u32 {
    u32::from_str_radix(word, 16).unwrap_or_else(|_| panic!("{word} is not 8 hexadecimal digits"))
}

/// The value of `key=value` among words.
pub fn value<'a>(words: &'a [String], key: &str) -> &'a str {
    let pairs = words.iter().filter_map(|word| word.split_once('='));
    pairs.into_iter().find(|(name, _)| *name == key).unwrap_or_else(|| panic!("no {key}=")).1
}

/// A border: `w` wrapped, a number background.
pub fn border(word: &str) -> Border {
    match word {
        "w" => Border::Wrapped,
        _ => Border::Background(number(word)),
    }
}

/// A list of samples: as [`few`] has it, or `lcg:SEED:COUNT:LIMIT`, a list made by a linear congruential generator.
pub fn list(word: &str) -> Vec<i32> {
    if let Some(made) = word.strip_prefix("lcg:") {
        let parts: Vec<u64> = made.split(':').map(number).collect();
        return generated(parts[0], parts[1], parts[2]);
    }
    few(word)
}

/// A list of numbers with commas between them: `v*n` is v n times over, `-` the empty list.
pub fn few<T: std::str::FromStr + Clone>(word: &str) -> Vec<T> {
    let entries = word.split(',').filter(|entry| *entry != "-");
    entries
        .flat_map(|entry| {
            let (sample, times) = entry.split_once('*').unwrap_or((entry, "1"));
            vec![number(sample); number(times)]
        })
        .collect()
}

/// `count` samples within `limit`, made from a seed.
fn generated(seed: u64, count: u64, limit: u64) -> Vec<i32> {
    let mut state = seed;
    let mut next = || {
        state = state.wrapping_mul(6_364_136_223_846_793_005).wrapping_add(1_442_695_040_888_963_407);
        ((state >> 33) % (2 * limit + 1)) as i32 - limit as i32
    };
    (0..count).map(|_| next()).collect()
}

/// The hash FNV-1a of 64 bits over samples, each as four bytes, lowest first.
pub fn fnv(samples: &[i32]) -> u64 {
    let mut hash = 0xCBF2_9CE4_8422_2325_u64;
    for byte in samples.iter().flat_map(|sample| sample.to_le_bytes()) {
        hash = (hash ^ u64::from(byte)).wrapping_mul(0x0000_0100_0000_01B3);
    }
    hash
}

/// One case of the line program: its name, its whole input and its whole output.
pub struct Case {
    pub name: String,
    pub input: Vec<u8>,
    pub output: Vec<u8>,
}

/// The bytes of a line of input, with `\xHH` for the byte HH.
fn bytes(escaped: &str) -> Vec<u8> {
    let mut parts = escaped.split("\\x");
    let mut bytes = parts.next().unwrap_or_default().as_bytes().to_vec();
    for part in parts {
        bytes.push(u8::from_str_radix(&part[..2], 16).expect("an escape has two digits"));
        bytes.extend_from_slice(&part.as_bytes()[2..]);
    }
    bytes
}

/// The cases of the line program.
pub fn cases() -> Vec<Case> {
    let mut cases: Vec<Case> = Vec::new();
    for line in text("line_program.txt").lines() {
        let (mark, rest) = (&line[..1], line.get(2..).unwrap_or_default());
        if mark == "=" {
            let name = rest.to_string();
            cases.push(Case { name, input: Vec::new(), output: Vec::new() });
            continue;
        }
        let case = cases.last_mut().expect("a case has a name");
        match mark {
            "<" => case.input.extend([bytes(rest), b"\n".to_vec()].concat()),
            "-" => case.input.extend(bytes(rest)),
            ">" => case.output.extend([rest.as_bytes(), b"\n"].concat()),
            _ => panic!("unknown mark {mark}"),
        }
    }
    assert_eq!(cases.len(), 46, "line_program.txt is not whole");
    cases
}
