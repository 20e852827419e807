//! Bits, bytes and hex.

/// Bits filled into bytes from the top bit, leftover bits zero.
pub fn pack(bits: &[bool]) -> Vec<u8> {
    let mut out = vec![0u8; bits.len().div_ceil(8)];
    for (i, bit) in bits.iter().enumerate() {
        if *bit {
            out[i / 8] |= 0x80 >> (i % 8);
        }
    }
    out
}

/// The bit at a position.
pub fn bit(bytes: &[u8], at: usize) -> bool {
    bytes[at / 8] >> (7 - at % 8) & 1 == 1
}

/// The first bits of some bytes.
pub fn unpack(bytes: &[u8], count: usize) -> Vec<bool> {
    (0..count).map(|at| bit(bytes, at)).collect()
}

/// Bits as 0 and 1.
pub fn text<I: IntoIterator<Item = bool>>(bits: I) -> String {
    bits.into_iter().map(|b| if b { '1' } else { '0' }).collect()
}

/// Bytes in hex, `-` for none.
pub fn hex(bytes: &[u8]) -> String {
    if bytes.is_empty() {
        return "-".to_owned();
    }
    bytes.iter().map(|x| format!("{x:02x}")).collect()
}

/// Bytes from hex.
pub fn unhex(text: &str) -> Option<Vec<u8>> {
    if text == "-" {
        return Some(vec![]);
    }
    if text.len() % 2 != 0 || !text.is_ascii() {
        return None;
    }
    (0..text.len() / 2).map(|i| u8::from_str_radix(&text[2 * i..2 * i + 2], 16).ok()).collect()
}
