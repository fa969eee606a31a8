//! A picture as a PNG file. Nothing is compressed: the rows stand in stored blocks.

/// A picture of three bytes to a dot, red, green and blue, row after row.
pub fn encode(width: usize, height: usize, dots: &[u8]) -> Vec<u8> {
    let mut file = b"\x89PNG\r\n\x1a\n".to_vec();
    let mut head = number(width);
    head.extend(number(height));
    // 8 bits to a number, red green blue, and the only compression, filters and order there are.
    head.extend([8, 2, 0, 0, 0]);
    put_chunk(&mut file, b"IHDR", &head);
    put_chunk(&mut file, b"IDAT", &stored(&rows(width, dots)));
    put_chunk(&mut file, b"IEND", &[]);
    file
}

fn number(value: usize) -> Vec<u8> {
    (value as u32).to_be_bytes().to_vec()
}

/// Each row behind the number of its filter, 0 for none.
fn rows(width: usize, dots: &[u8]) -> Vec<u8> {
    dots.chunks(3 * width)
        .flat_map(|row| [&[0], row].concat())
        .collect()
}

/// Bytes as they are, in blocks of at most 65,535, and their sum.
fn stored(bytes: &[u8]) -> Vec<u8> {
    let mut stream = vec![0x78, 0x01];
    let mut blocks = bytes.chunks(usize::from(u16::MAX)).peekable();
    while let Some(block) = blocks.next() {
        let length = block.len() as u16;
        stream.push(blocks.peek().is_none().into());
        stream.extend(length.to_le_bytes());
        stream.extend((!length).to_le_bytes());
        stream.extend(block);
    }
    stream.extend(adler32(bytes).to_be_bytes());
    stream
}

fn put_chunk(file: &mut Vec<u8>, kind: &[u8; 4], data: &[u8]) {
    let named = [kind, data].concat();
    file.extend(number(data.len()));
    file.extend(&named);
    file.extend(crc32(&named).to_be_bytes());
}

fn adler32(bytes: &[u8]) -> u32 {
    let (mut one, mut two) = (1, 0);
    for &byte in bytes {
        one = (one + u32::from(byte)) % 65_521;
        two = (two + one) % 65_521;
    }
    two << 16 | one
}

/// What each byte adds to the check.
const CHECKS: [u32; 256] = checks();

const fn checks() -> [u32; 256] {
    let mut table = [0; 256];
    let mut byte = 0;
    while byte < 256 {
        let mut check = byte as u32;
        let mut bit = 0;
        while bit < 8 {
            check = check >> 1 ^ if check & 1 == 1 { 0xedb8_8320 } else { 0 };
            bit += 1;
        }
        table[byte] = check;
        byte += 1;
    }
    table
}

fn crc32(bytes: &[u8]) -> u32 {
    !bytes.iter().fold(!0, |check: u32, &byte| {
        check >> 8 ^ CHECKS[usize::from(check as u8 ^ byte)]
    })
}
