//! The bytes that are to be written.

/// Room for all that one event can write, so that no event takes memory.
const ROOM: usize = 1 << 20;

const DIGITS: [[u8; 2]; 256] = hex_digits();

const fn hex_digits() -> [[u8; 2]; 256] {
    let letters = b"0123456789abcdef";
    let mut table = [[0; 2]; 256];
    let mut byte = 0;
    while byte < 256 {
        table[byte] = [letters[byte >> 4], letters[byte & 15]];
        byte += 1;
    }
    table
}

/// The two digits of each number below 100.
const PAIRS: [[u8; 2]; 100] = pairs();

const fn pairs() -> [[u8; 2]; 100] {
    let mut table = [[0; 2]; 100];
    let mut number = 0;
    while number < 100 {
        table[number] = [b'0' + (number / 10) as u8, b'0' + (number % 10) as u8];
        number += 1;
    }
    table
}

/// What one event writes, and how many of its lines are of which sort.
pub struct Text {
    bytes: Vec<u8>,
    length: usize,
    /// How many calls ended well, how many were refused, and how many levels were dropped.
    pub ended: u32,
    pub refused: u32,
    pub dropped: u32,
}

impl Text {
    pub fn new() -> Text {
        Text { bytes: vec![0; ROOM], length: 0, ended: 0, refused: 0, dropped: 0 }
    }

    #[inline]
    pub fn bytes(&self) -> &[u8] {
        &self.bytes[..self.length]
    }

    #[inline]
    pub fn clear(&mut self) {
        self.length = 0;
    }

    /// Bytes as they are.
    #[inline(always)]
    pub fn word(&mut self, word: &str) {
        let end = self.length + word.len();
        self.bytes[self.length..end].copy_from_slice(word.as_bytes());
        self.length = end;
    }

    /// One byte.
    #[inline(always)]
    pub fn byte(&mut self, byte: u8) {
        self.bytes[self.length] = byte;
        self.length += 1;
    }

    /// A number in decimal.
    #[inline]
    pub fn number(&mut self, value: u64) {
        if value < 10 {
            return self.byte(b'0' + value as u8);
        }
        match u32::try_from(value) {
            Ok(value) => self.short_number(value),
            Err(_) => self.long_number(value),
        }
    }

    fn short_number(&mut self, value: u32) {
        let mut count = 1;
        let mut bound: u64 = 10;
        while u64::from(value) >= bound {
            bound *= 10;
            count += 1;
        }
        let digits = &mut self.bytes[self.length..self.length + count];
        self.length += count;
        let mut rest = value;
        let mut at = count;
        while at >= 2 {
            at -= 2;
            digits[at..at + 2].copy_from_slice(&PAIRS[(rest % 100) as usize]);
            rest /= 100;
        }
        if at == 1 {
            digits[0] = b'0' + rest as u8;
        }
    }

    fn long_number(&mut self, value: u64) {
        let end = 1_000_000_000;
        self.number(value / end);
        let mut place = end / 10;
        while place > 0 {
            self.byte(b'0' + (value / place % 10) as u8);
            place /= 10;
        }
    }

    /// A space and a number.
    #[inline(always)]
    pub fn next(&mut self, value: impl Into<u64>) {
        self.byte(b' ');
        self.number(value.into());
    }

    /// Bytes as hex digits.
    pub fn hex(&mut self, bytes: &[u8]) {
        let end = self.length + 2 * bytes.len();
        let digits = self.bytes[self.length..end].chunks_exact_mut(2);
        for (digits, &byte) in digits.zip(bytes) {
            digits.copy_from_slice(&DIGITS[usize::from(byte)]);
        }
        self.length = end;
    }

    /// The line of bytes that a call gives.
    pub fn data(&mut self, call: u32, bytes: &[u8]) {
        self.number(u64::from(call));
        self.word(if bytes.is_empty() { " data" } else { " data " });
        self.hex(bytes);
        self.end();
    }

    /// The end of a line.
    #[inline(always)]
    pub fn end(&mut self) {
        self.byte(b'\n');
    }
}
