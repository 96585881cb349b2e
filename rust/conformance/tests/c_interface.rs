//! The header and the archive as a C or C++ programmer meets them.
#![cfg(feature = "library")]

use conformance::c::{compiler, done, printed};
use conformance::files::Temporary;
use std::fs;

/// What the C program prints where all is well.
const PRINTED: &str = "lines: 14 as the document has them\n\
                       work places: 7680 for 640 by 480, 3840 for a line of 640\n\
                       pictures: 741 852 963, count 0; 0 10 5 5, count 2\n\
                       1000 added to all: linear keeps its range, Keys and the spline overshoot\n\
                       tickets: 4 lines asked, 4 committed\n\
                       forecast: 36 work places, 4 lines, samples from -195 to 195\n\
                       blocks: 16 lines across and down, 16 across and depth, 21 down and depth\n\
                       what made a sample: -137438953472 / 137438953472 = -1\n\
                       quarter moves: 741 852 963; 3 by 2 becomes 2 by 3, 4 1 5 2 6 3\n\
                       on its side: turned, then step 146\n\
                       lower row: wrapped 30 90 10 20, on background -1 -1 10 20\n\
                       refusals: 1 2 3 4 5 6 7 8 9 12 14 15 17\n\
                       a move above 7: 16\n\
                       settings: kernel 2, column 13, row 14, shears 11 and 12, border 1 of -15\n\
                       steps: S(1) = 2, S(1000) = 1887, S(1697) = 2897\n\
                       levelling: -20, -1697\n\
                       line under two points: row 1, column 1 is below; step -1240\n\
                       readings: Under 16.5, Level 17, Over 21; darkest -0.5, lightest 256\n\
                       from black to white: 0.0078125 16 235 0.0078125\n\
                       line format: 0000000001000100004000\n\
                       all as documented\n";

#[test]
fn the_documents_examples_from_c() {
    assert_eq!(printed("document.c", "cc", &["-std=c99", "-O0"]), PRINTED);
    assert_eq!(printed("document.c", "cc", &["-std=c11", "-O2"]), PRINTED);
}

#[test]
fn the_header_alone_as_c11_and_cpp17() {
    let folder = Temporary::new("header");
    for (name, compiler_name, flags) in [
        ("header.c", "cc", ["-std=c11", "-Wstrict-prototypes", "-fsyntax-only"]),
        ("header.cpp", "c++", ["-std=c++17", "-Wold-style-cast", "-fsyntax-only"]),
    ] {
        fs::write(folder.path(name), "#include <straightener.h>\n").expect("a file can be written");
        done(compiler(compiler_name, &flags).arg(folder.path(name)));
    }
}

#[test]
fn a_cpp_program_links() {
    let (version, _) = env!("CARGO_PKG_VERSION").rsplit_once('.').expect("three parts");
    let kernel = "the kernel must be 0 (linear), 1 (Keys) or 2 (cubic spline)";
    let expected = format!("version {version}: 0 10 5 5\nrefused: {kernel}\n");
    assert_eq!(printed("program.cpp", "c++", &["-std=c++17"]), expected);
}
