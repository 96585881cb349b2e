//! PNG files held against a stock decoder, `pngtopnm`, where one is installed.

use std::io::{ErrorKind, Write};
use std::process::{Command, Stdio};
use tools::pgm::Picture;
use tools::png;

/// The picture that the stock decoder reads from a PNG file; nothing where there is no decoder.
fn decoded(file: &[u8]) -> Option<Picture> {
    let started = Command::new("pngtopnm").stdin(Stdio::piped()).stdout(Stdio::piped()).spawn();
    let mut decoder = match started {
        Err(error) if error.kind() == ErrorKind::NotFound => return None,
        started => started.expect("pngtopnm starts"),
    };
    let mut input = decoder.stdin.take().expect("a pipe");
    let handed_over = std::thread::scope(|scope| {
        let writer = scope.spawn(|| input.write_all(file).map(|()| drop(input)));
        let ended = decoder.wait_with_output().expect("pngtopnm ends");
        writer.join().expect("no panic").expect("pngtopnm reads the file");
        ended
    });
    assert!(handed_over.status.success(), "pngtopnm refuses the file");
    Some(Picture::from_pgm(&handed_over.stdout).expect("pngtopnm writes a PGM file"))
}

#[test]
fn a_stock_decoder_reads_the_same_picture() {
    // The largest takes 17 stored blocks.
    for (width, height) in [(1, 1), (7, 3), (255, 256), (256, 256), (1_024, 1_024)] {
        let greys = (0..width * height).map(|place| (place * place / 7 + place) as u8).collect();
        let picture = Picture { width, height, greys };
        let Some(read) = decoded(&png::encoded(&picture)) else {
            println!("pngtopnm is not installed: the files are held to their own checksums alone");
            return;
        };
        assert!(read == picture, "{width} by {height}");
    }
}
