//! PNG files of grey pictures, stored without compression.

use crate::pgm::Picture;

/// The most bytes of one stored block.
const BLOCK: usize = 65_535;

/// A picture as a PNG file of 8 bits a sample.
pub fn encoded(picture: &Picture) -> Vec<u8> {
    let (width, height) = (picture.width as u32, picture.height as u32);
    // Depth 8, grey, deflate, adaptive filters, no interlacing.
    let header = [&width.to_be_bytes()[..], &height.to_be_bytes(), &[8, 0, 0, 0, 0]].concat();
    // Each row begins with its filter: 0, none.
    let rows: Vec<u8> = picture.greys.chunks(picture.width).flat_map(|row| [&[0], row].concat()).collect();
    let mut file = b"\x89PNG\r\n\x1A\n".to_vec();
    file.extend(chunk(b"IHDR", &header));
    file.extend(chunk(b"IDAT", &stored(&rows)));
    file.extend(chunk(b"IEND", &[]));
    file
}

/// A chunk: its length, its kind, its data and their checksum.
fn chunk(kind: &[u8; 4], data: &[u8]) -> Vec<u8> {
    let checked = [&kind[..], data].concat();
    let checksum = crc(&checked).to_be_bytes();
    [&(data.len() as u32).to_be_bytes()[..], &checked, &checksum].concat()
}

/// Data in zlib's form, in stored blocks.
fn stored(data: &[u8]) -> Vec<u8> {
    let mut stream = vec![0x78, 0x01];
    let blocks = data.chunks(BLOCK).count();
    for (i, block) in data.chunks(BLOCK).enumerate() {
        let length = block.len() as u16;
        stream.push(u8::from(i + 1 == blocks));
        stream.extend(length.to_le_bytes());
        stream.extend((!length).to_le_bytes());
        stream.extend_from_slice(block);
    }
    stream.extend(adler(data).to_be_bytes());
    stream
}

/// The checksum CRC-32.
fn crc(data: &[u8]) -> u32 {
    let mut crc = !0_u32;
    for &byte in data {
        crc ^= u32::from(byte);
        for _ in 0..8 {
            crc = (crc >> 1) ^ (0xEDB8_8320 * (crc & 1));
        }
    }
    !crc
}

/// The checksum Adler-32.
fn adler(data: &[u8]) -> u32 {
    let (mut a, mut b) = (1, 0);
    for &byte in data {
        a = (a + u32::from(byte)) % 65_521;
        b = (b + a) % 65_521;
    }
    (b << 16) | a
}

#[cfg(test)]
mod tests {
    use super::*;

    #[test]
    fn checksums_of_the_known_text() {
        assert_eq!(crc(b"123456789"), 0xCBF4_3926);
        assert_eq!(adler(b"Wikipedia"), 0x11E6_0398);
    }

    #[test]
    fn blocks_join_to_the_rows() {
        for length in [1, 2, BLOCK, BLOCK + 1, 3 * BLOCK] {
            let data: Vec<u8> = (0..length).map(|k| (k % 251) as u8).collect();
            let stream = stored(&data);
            let (mut joined, mut at, mut last) = (Vec::new(), 2, false);
            while !last {
                let size = usize::from(u16::from_le_bytes([stream[at + 1], stream[at + 2]]));
                assert_eq!([!stream[at + 1], !stream[at + 2]], stream[at + 3..at + 5]);
                last = stream[at] == 1;
                joined.extend_from_slice(&stream[at + 5..at + 5 + size]);
                at += 5 + size;
            }
            assert!(joined == data && stream[at..] == adler(&data).to_be_bytes());
        }
    }
}
