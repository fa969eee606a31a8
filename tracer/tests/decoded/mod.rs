//! A PNG file read again by the definitions: the check bit by bit, the sum as two sums, stored blocks only.

pub struct Picture {
    pub width: usize,
    pub height: usize,
    dots: Vec<u8>,
}

impl Picture {
    /// Red, green and blue of a dot.
    pub fn dot(&self, x: usize, y: usize) -> [u8; 3] {
        let at = 3 * (y * self.width + x);
        self.dots[at..at + 3].try_into().unwrap()
    }
}

pub fn decode(file: &[u8]) -> Picture {
    let (signature, chunks) = file.split_at(8);
    assert_eq!(signature, [137, 80, 78, 71, 13, 10, 26, 10]);
    let (head, chunks) = chunk(chunks, "IHDR");
    let (data, chunks) = chunk(chunks, "IDAT");
    let (end, chunks) = chunk(chunks, "IEND");
    assert!(end.is_empty() && chunks.is_empty());
    let (width, height) = (number(&head[..4]), number(&head[4..8]));
    assert_eq!(head[8..], [8, 2, 0, 0, 0]);
    let rows = inflate(data);
    assert_eq!(rows.len(), height * (1 + 3 * width));
    let unfiltered = |row: &[u8]| {
        assert_eq!(row[0], 0);
        row[1..].to_vec()
    };
    let dots = rows.chunks(1 + 3 * width).flat_map(unfiltered).collect();
    Picture {
        width,
        height,
        dots,
    }
}

fn number(bytes: &[u8]) -> usize {
    bytes
        .iter()
        .fold(0, |number, &byte| number << 8 | usize::from(byte))
}

/// A chunk's data, its check right, and what follows.
fn chunk<'a>(bytes: &'a [u8], kind: &str) -> (&'a [u8], &'a [u8]) {
    let length = number(&bytes[..4]);
    let (named, after) = bytes[4..].split_at(4 + length);
    assert_eq!(&named[..4], kind.as_bytes());
    assert_eq!(number(&after[..4]), remainder(named));
    (&named[4..], &after[4..])
}

/// The remainder by the polynomial 0x04c11db7: each byte's lowest bit first, the first 32 bits and the result turned over.
fn remainder(bytes: &[u8]) -> usize {
    let mut register: u32 = !0;
    for byte in bytes {
        for bit in 0..8 {
            let top = register >> 31 == 1;
            register <<= 1;
            if top != (byte >> bit & 1 == 1) {
                register ^= 0x04c1_1db7;
            }
        }
    }
    (!register).reverse_bits() as usize
}

/// The bytes of stored blocks, their sum right.
fn inflate(stream: &[u8]) -> Vec<u8> {
    assert_eq!(stream[0] & 15, 8);
    assert_eq!(number(&stream[..2]) % 31, 0);
    let (mut blocks, sum) = stream[2..].split_at(stream.len() - 6);
    let mut bytes = Vec::new();
    loop {
        let length = usize::from(blocks[1]) + 256 * usize::from(blocks[2]);
        assert_eq!([!blocks[1], !blocks[2]], blocks[3..5]);
        bytes.extend(&blocks[5..5 + length]);
        let last = blocks[0];
        blocks = &blocks[5 + length..];
        match last {
            0 => continue,
            1 => break,
            other => panic!("a block of kind {other}"),
        }
    }
    assert!(blocks.is_empty());
    assert_eq!(number(sum), sums(&bytes));
    bytes
}

/// One more than the sum of the bytes, and the sum of these sums, each by its remainder.
fn sums(bytes: &[u8]) -> usize {
    let plain = 1 + bytes.iter().map(|&byte| usize::from(byte)).sum::<usize>();
    let counted = bytes.iter().rev().zip(1..);
    let weighted = bytes.len()
        + counted
            .map(|(&byte, times)| times * usize::from(byte))
            .sum::<usize>();
    (weighted % 65_521) << 16 | (plain % 65_521)
}
