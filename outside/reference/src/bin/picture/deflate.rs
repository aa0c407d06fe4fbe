//! The zlib form of bytes: one deflate block with the fixed Huffman codes, in which a run of one byte is a
//! match at distance 1.

/// Bits in the order of deflate: each byte is filled from its lowest bit.
struct Bits {
    bytes: Vec<u8>,
    used: u32,
}

impl Bits {
    /// Appends the lowest `count` bits of a number, the lowest first.
    fn number(&mut self, number: u32, count: u32) {
        for place in 0..count {
            if self.used.is_multiple_of(8) {
                self.bytes.push(0);
            }
            *self.bytes.last_mut().unwrap() |= ((number >> place & 1) as u8) << (self.used % 8);
            self.used += 1;
        }
    }

    /// Appends a Huffman code of `count` bits, the highest first.
    fn code(&mut self, code: u32, count: u32) {
        self.number(code.reverse_bits() >> (32 - count), count);
    }

    /// Appends a byte, a length's symbol or the block's end (256) in the fixed code.
    fn symbol(&mut self, symbol: u32) {
        match symbol {
            0..=143 => self.code(0x30 + symbol, 8),
            144..=255 => self.code(0x190 + symbol - 144, 9),
            256..=279 => self.code(symbol - 256, 7),
            _ => self.code(0xC0 + symbol - 280, 8),
        }
    }

    /// Appends a match of this length, 3 to 258, at distance 1.
    fn run(&mut self, length: u32) {
        let over = length - 3;
        if length == 258 {
            self.symbol(285);
        } else if over < 8 {
            self.symbol(257 + over);
        } else {
            let extra = over.ilog2() - 2;
            self.symbol(261 + 4 * extra + (over >> extra & 3));
            self.number(over, extra);
        }
        self.code(0, 5);
    }
}

/// How many bytes from `start` on equal the one before them, at most 258.
fn run_length(data: &[u8], start: usize) -> usize {
    match start.checked_sub(1) {
        Some(before) => data[start..].iter().take(258).take_while(|&&byte| byte == data[before]).count(),
        None => 0,
    }
}

/// The data as one last deflate block.
fn deflated(data: &[u8]) -> Vec<u8> {
    let mut bits = Bits { bytes: vec![], used: 0 };
    bits.number(1, 1);
    bits.number(1, 2);
    let mut at = 0;
    while at < data.len() {
        let run = run_length(data, at);
        if run < 3 {
            bits.symbol(data[at] as u32);
            at += 1;
        } else {
            bits.run(run as u32);
            at += run;
        }
    }
    bits.symbol(256);
    bits.bytes
}

/// The Adler-32 checksum.
fn adler32(data: &[u8]) -> u32 {
    let (mut a, mut b) = (1, 0);
    for &byte in data {
        a = (a + byte as u32) % 65521;
        b = (b + a) % 65521;
    }
    b << 16 | a
}

/// The data in zlib's form: its two bytes of head, the deflate block and the checksum.
pub fn zlib(data: &[u8]) -> Vec<u8> {
    [&[0x78, 0x01], &deflated(data)[..], &adler32(data).to_be_bytes()].concat()
}

#[cfg(test)]
pub mod tests {
    use super::*;
    use reference::random::Random;

    /// The bits of a deflate stream, read from the lowest bit of each byte.
    struct Reader<'a>(&'a [u8], usize);

    impl Reader<'_> {
        fn bit(&mut self) -> u32 {
            self.1 += 1;
            (self.0[(self.1 - 1) / 8] >> ((self.1 - 1) % 8) & 1) as u32
        }

        fn number(&mut self, count: u32) -> u32 {
            (0..count).fold(0, |number, place| number | self.bit() << place)
        }

        fn code(&mut self, start: u32, count: u32) -> u32 {
            (0..count).fold(start, |code, _| code << 1 | self.bit())
        }

        /// A symbol by the table of RFC 1951, 3.2.6.
        fn symbol(&mut self) -> u32 {
            let seven = self.code(0, 7);
            if seven < 0x18 {
                return 256 + seven;
            }
            let eight = self.code(seven, 1);
            match eight {
                0x30..=0xBF => eight - 0x30,
                0xC0..=0xC7 => 280 + eight - 0xC0,
                _ => 144 + self.code(eight, 1) - 0x190,
            }
        }

        /// A length by the table of RFC 1951, 3.2.5.
        fn length(&mut self, symbol: u32) -> u32 {
            let extra =
                [0, 0, 0, 0, 0, 0, 0, 0, 1, 1, 1, 1, 2, 2, 2, 2, 3, 3, 3, 3, 4, 4, 4, 4, 5, 5, 5, 5, 0];
            let least = [
                3, 4, 5, 6, 7, 8, 9, 10, 11, 13, 15, 17, 19, 23, 27, 31, 35, 43, 51, 59, 67, 83, 99, 115,
                131, 163, 195, 227, 258,
            ];
            let row = symbol as usize - 257;
            least[row] + self.number(extra[row])
        }
    }

    /// The bytes of a zlib stream of one block of fixed codes with matches at distance 1 only.
    pub fn inflated(stream: &[u8]) -> Vec<u8> {
        let (body, sum) = stream[2..].split_at(stream.len() - 6);
        let mut reader = Reader(body, 0);
        assert_eq!((reader.number(1), reader.number(2)), (1, 1));
        let mut data = vec![];
        loop {
            match reader.symbol() {
                256 => break,
                symbol @ 257.. => {
                    let length = reader.length(symbol) as usize;
                    assert_eq!(reader.code(0, 5), 0);
                    data.extend(vec![*data.last().unwrap(); length]);
                }
                byte => data.push(byte as u8),
            }
        }
        assert_eq!(reader.1.div_ceil(8), body.len());
        assert_eq!(sum, adler32(&data).to_be_bytes());
        data
    }

    #[test]
    fn known_checksums() {
        assert_eq!(adler32(b""), 1);
        assert_eq!(adler32(b"Wikipedia"), 0x11E60398);
    }

    #[test]
    fn every_byte_and_every_length_of_a_run_comes_back() {
        let all: Vec<u8> = (0..=255).collect();
        assert_eq!(inflated(&zlib(&all)), all);
        for length in 0..600 {
            let data = [vec![7], vec![200; length], vec![7]].concat();
            assert_eq!(inflated(&zlib(&data)), data, "{length}");
        }
        let few: Vec<u8> = Random(5).bytes(9000).iter().map(|byte| byte / 100).collect();
        assert_eq!(inflated(&zlib(&few)), few);
    }
}
