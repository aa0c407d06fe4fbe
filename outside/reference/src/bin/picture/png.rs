//! Grey pictures of 8 bits, and their PNG form.

use crate::deflate::zlib;

/// A grey picture, row by row; 0 is black, 255 white.
pub struct Picture {
    pub width: usize,
    pub height: usize,
    pub greys: Vec<u8>,
}

impl Picture {
    /// A picture of one grey.
    pub fn new(width: usize, height: usize, grey: u8) -> Picture {
        Picture { width, height, greys: vec![grey; width * height] }
    }

    /// Fills a rectangle whose first column is `left` and whose first row is `top`.
    pub fn fill(&mut self, left: usize, top: usize, width: usize, height: usize, grey: u8) {
        for row in top..top + height {
            self.greys[row * self.width + left..][..width].fill(grey);
        }
    }

    /// The rows as PNG filters them: one equal to the row above by `Up`, which leaves zeros, another by `Sub`,
    /// which leaves differences to the left.
    fn filtered(&self) -> Vec<u8> {
        let mut bytes = vec![];
        let mut above: &[u8] = &[];
        for row in self.greys.chunks(self.width) {
            if row == above {
                bytes.push(2);
                bytes.extend(vec![0; self.width]);
            } else {
                bytes.push(1);
                bytes.push(row[0]);
                bytes.extend(row.windows(2).map(|pair| pair[1].wrapping_sub(pair[0])));
            }
            above = row;
        }
        bytes
    }

    /// The PNG file: a head, the samples, an end.
    pub fn png(&self) -> Vec<u8> {
        let [width, height] = [self.width, self.height].map(|side| (side as u32).to_be_bytes());
        let depth_and_methods = [8, 0, 0, 0, 0];
        let head = [&width[..], &height, &depth_and_methods].concat();
        let data = zlib(&self.filtered());
        [&SIGNATURE[..], &chunk(b"IHDR", &head), &chunk(b"IDAT", &data), &chunk(b"IEND", b"")].concat()
    }
}

/// The first eight bytes of every PNG file.
const SIGNATURE: [u8; 8] = *b"\x89PNG\r\n\x1A\n";

/// The CRC-32 checksum.
fn crc32(data: &[u8]) -> u32 {
    let mut crc = !0;
    for &byte in data {
        crc ^= byte as u32;
        for _ in 0..8 {
            crc = if crc & 1 == 1 { crc >> 1 ^ 0xEDB88320 } else { crc >> 1 };
        }
    }
    !crc
}

/// A chunk: the length of its data, its name, the data, and the checksum of name and data.
fn chunk(name: &[u8; 4], data: &[u8]) -> Vec<u8> {
    let named = [name, data].concat();
    [&(data.len() as u32).to_be_bytes()[..], &named, &crc32(&named).to_be_bytes()].concat()
}

#[cfg(test)]
mod tests {
    use super::*;
    use crate::deflate::tests::inflated;
    use reference::random::Random;

    /// The chunks of a PNG file, name and data, their lengths and checksums judged.
    fn chunks(mut rest: &[u8]) -> Vec<(&[u8], &[u8])> {
        assert_eq!(rest[..8], SIGNATURE);
        rest = &rest[8..];
        let mut all = vec![];
        while !rest.is_empty() {
            let length = u32::from_be_bytes(rest[..4].try_into().unwrap()) as usize;
            let (named, end) = rest[4..].split_at(4 + length);
            assert_eq!(end[..4], crc32(named).to_be_bytes());
            all.push(named.split_at(4));
            rest = &end[4..];
        }
        all
    }

    /// The greys of filtered rows.
    fn unfiltered(bytes: &[u8], width: usize) -> Vec<u8> {
        let mut greys: Vec<u8> = vec![];
        for row in bytes.chunks(width + 1) {
            for (x, byte) in row[1..].iter().enumerate() {
                let beside = match (row[0], x) {
                    (1, 0) => 0,
                    (1, _) => greys[greys.len() - 1],
                    (2, _) => greys[greys.len() - width],
                    (filter, _) => panic!("filter {filter}"),
                };
                greys.push(byte.wrapping_add(beside));
            }
        }
        greys
    }

    #[test]
    fn known_checksums() {
        assert_eq!(crc32(b"123456789"), 0xCBF43926);
        assert_eq!(chunk(b"IEND", b""), *b"\0\0\0\0IEND\xAE\x42\x60\x82");
    }

    #[test]
    fn chunks_and_samples_come_back() {
        for (width, height) in [(1, 1), (5, 3), (300, 7)] {
            let mut picture = Picture::new(width, height, 128);
            let half = width * height / 2;
            picture.greys[..half].copy_from_slice(&Random(3).bytes(half));
            let png = picture.png();
            let chunks = chunks(&png);
            assert_eq!(chunks.iter().map(|chunk| chunk.0).collect::<Vec<_>>(), [b"IHDR", b"IDAT", b"IEND"]);
            let [w1, w0] = (width as u16).to_be_bytes();
            assert_eq!(chunks[0].1, [0, 0, w1, w0, 0, 0, 0, height as u8, 8, 0, 0, 0, 0]);
            assert_eq!(unfiltered(&inflated(chunks[1].1), width), picture.greys);
            assert_eq!(chunks[2].1, []);
        }
    }
}
