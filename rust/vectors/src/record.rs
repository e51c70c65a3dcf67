//! The form of a case: a byte that says which call it is, then fields, each a 16-bit length (low byte first) and its bytes.

/// Fields: sheet, path, answer, kind. The answer is as that of `INCLUDE`; kind is one byte.
pub const LOOKUP: u8 = 0;
/// Fields: bundle, folder, text, answer. The answer: number, the length of the buffer in 16 bits, the text.
pub const INCLUDE: u8 = 1;
/// Fields: bundle, text, sheet, answer for `out`, answer for `left`. Each answer is as that of `INCLUDE`: number, the length of the buffer
/// in 16 bits, what the call writes to its start (for `out` the text, for `left` the sheet; nothing where it is refused). The number
/// is the same in both. `len` and `sheet_len` are how many bytes stand there; behind them the buffer is zero.
pub const EXPANSION: u8 = 2;
/// Fields: bundle, path, answer for `left` with the sheet, answer for `work` with nothing: all of it is zero. Each answer is as above, with
/// the same number in both.
pub const DEFINITIONS: u8 = 3;
/// Fields: bundle, folder, text, sheet, answer for `middle` with nothing, answer for `out` with the text, answer for `left` with the sheet,
/// closed. Each answer is as above, with the same number in all three; closed is one byte, 1 or 0.
pub const PASS: u8 = 4;
/// Fields: seed, list, answer. The seed is four bytes, low byte first; the list is one byte, 1 for the definition pieces and else 0; the answer
/// is as that of `INCLUDE`.
pub const LOAD: u8 = 5;

/// The longest buffer that the program has.
pub const LONGEST_ROOM: usize = 4096;

pub struct Record(pub Vec<u8>);

impl Record {
    pub fn new(call: u8, fields: &[&[u8]]) -> Record {
        let mut bytes = vec![call];
        for field in fields {
            bytes.extend(word(field.len()));
            bytes.extend(*field);
        }
        Record(bytes)
    }
}

/// The answer for one buffer: number, the buffer's length in 16 bits, what the call writes to its start.
pub fn answer_field(number: u8, room: usize, bytes: &[u8]) -> Vec<u8> {
    [&[number][..], &word(room), bytes].concat()
}

/// The answer of a call that writes one text: that text, or the number of the refusal.
pub fn text_field(wanted: &Result<Vec<u8>, u8>, room: usize) -> Vec<u8> {
    match wanted {
        Ok(text) => answer_field(0, room, text),
        Err(number) => answer_field(*number, room, b""),
    }
}

/// 16 bits, low byte first.
pub fn word(n: usize) -> [u8; 2] {
    u16::try_from(n).expect("16 bits").to_le_bytes()
}
