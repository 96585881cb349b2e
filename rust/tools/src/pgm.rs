//! PGM files: plain (P2) and raw (P5), 256 greys.

use crate::Outcome;

/// A grey picture, row by row.
#[derive(Clone, Debug, PartialEq, Eq)]
pub struct Picture {
    pub width: usize,
    pub height: usize,
    /// Width times height greys, 0 to 255.
    pub greys: Vec<u8>,
}

/// A file that is read from its beginning.
struct Reader<'a> {
    bytes: &'a [u8],
    at: usize,
}

impl Reader<'_> {
    /// The next word, after white space and comments.
    fn word(&mut self) -> Outcome<String> {
        let mut word = String::new();
        while let Some(&byte) = self.bytes.get(self.at) {
            match byte {
                b'#' if !word.is_empty() => break,
                b'#' => {
                    let comment = self.bytes[self.at..].iter().position(|&byte| byte == b'\n');
                    self.at = comment.map_or(self.bytes.len(), |length| self.at + length);
                    continue;
                }
                _ if !byte.is_ascii_whitespace() => word.push(char::from(byte)),
                _ if !word.is_empty() => break,
                _ => {}
            }
            self.at += 1;
        }
        if word.is_empty() {
            return Err("the PGM file ends too early".into());
        }
        Ok(word)
    }

    /// The next number.
    fn number(&mut self) -> Outcome<usize> {
        let word = self.word()?;
        word.parse().map_err(|_| format!("{word} in the PGM file is not a number").into())
    }
}

impl Picture {
    /// The part of a picture that begins at a column and a row.
    pub fn part(&self, column: usize, row: usize, width: usize, height: usize) -> Outcome<Picture> {
        let inside = |first: usize, size: usize, of: usize| first < of && (1..=of - first).contains(&size);
        if !inside(column, width, self.width) || !inside(row, height, self.height) {
            return Err(format!(
                "the part must lie in the picture, which is {} by {}",
                self.width, self.height
            )
            .into());
        }
        let rows = self.greys.chunks(self.width).skip(row).take(height);
        Ok(Picture {
            width,
            height,
            greys: rows.flat_map(|row| &row[column..column + width]).copied().collect(),
        })
    }

    /// Reads a PGM file.
    pub fn from_pgm(bytes: &[u8]) -> Outcome<Picture> {
        let mut reader = Reader { bytes, at: 0 };
        let kind = reader.word()?;
        if kind != "P2" && kind != "P5" {
            return Err("this is not a PGM file: it begins with neither P2 nor P5".into());
        }
        let (width, height, lightest) = (reader.number()?, reader.number()?, reader.number()?);
        if lightest != 255 {
            return Err(format!("the PGM file counts greys to {lightest}; only 255 is taken").into());
        }
        if width == 0 || height == 0 {
            return Err("the PGM file holds no picture: its width or height is 0".into());
        }
        let places = width.checked_mul(height).ok_or("the PGM file is too large")?;
        let greys = if kind == "P2" {
            plain_greys(&mut reader, places)?
        } else {
            let after = bytes[reader.at..].split_first().filter(|(space, _)| space.is_ascii_whitespace());
            let (_, raw) = after.ok_or("the PGM file has no white space between its header and its greys")?;
            raw.get(..places).ok_or("the PGM file ends too early")?.to_vec()
        };
        Ok(Picture { width, height, greys })
    }

    /// Writes a raw PGM file.
    pub fn to_pgm(&self) -> Vec<u8> {
        let header = format!("P5\n{} {}\n255\n", self.width, self.height);
        [header.as_bytes(), &self.greys].concat()
    }
}

/// The greys of a plain file.
fn plain_greys(reader: &mut Reader, places: usize) -> Outcome<Vec<u8>> {
    let mut greys = Vec::new();
    for _ in 0..places {
        let grey = reader.number()?;
        greys.push(u8::try_from(grey).map_err(|_| format!("grey {grey} is over 255"))?);
    }
    Ok(greys)
}

#[cfg(test)]
mod tests {
    use super::*;

    #[test]
    fn raw_and_plain_files_read_alike() {
        let picture = Picture { width: 3, height: 2, greys: vec![0, 10, 32, 35, 128, 255] };
        let plain = b"P2 # made by hand\n3 2# by two\n# greys\n255\n0 10 32\n35 128 255\n";
        assert_eq!(Picture::from_pgm(plain).expect("a plain file"), picture);
        assert_eq!(Picture::from_pgm(&picture.to_pgm()).expect("a raw file"), picture);
    }

    #[test]
    fn damaged_files_are_told() {
        let raw = Picture { width: 3, height: 2, greys: vec![7; 6] }.to_pgm();
        assert!((0..raw.len()).all(|length| Picture::from_pgm(&raw[..length]).is_err()));
        for text in [
            "P6 1 1 255 0",
            "P2 1 1 65535 0",
            "P2 1 1 255 256",
            "P2 1 x 255 0",
            "P5 0 1 255 ",
            "P5 1 0 255 ",
            "P5 1 1 255#\n0",
        ] {
            assert!(Picture::from_pgm(text.as_bytes()).is_err(), "{text}");
        }
    }
}
