//! The lines of a script.

use crate::disk::{BLOCK, is_name_byte};
use crate::object::KINDS;

/// How many bytes a line has at most, its newline left out.
pub const LONGEST: usize = 65_536;

/// How many bytes HEX stands for at most.
const MOST_BYTES: usize = 32_767;

/// The names of the amounts in a script.
const AMOUNTS: [&[u8]; 3] = [b"steps", b"records", b"locks"];

/// A system call. Its numbers are as the script has them: the kernel looks at their ranges.
#[derive(Clone, Copy)]
pub enum Request {
    Spawn,
    Exit,
    Yield,
    Sync,
    Open { name: [u8; 16] },
    Close { descriptor: u32 },
    Read { descriptor: u32, block: u32, offset: u32, length: u32 },
    Write { descriptor: u32, block: u32, offset: u32 },
    StreamWrite { descriptor: u32, block: u32, offset: u32 },
    Serve { port: u32 },
    StreamRead { descriptor: u32, block: u32, offset: u32, length: u32 },
    Lock { lock: u32 },
    Unlock { lock: u32 },
    Poke { cell: u32, value: u32 },
    Peek { cell: u32 },
    Tune { kind: u32, parameter: u32, value: u32 },
    Choose { kind: u32, policy: u32 },
    Give { to: u32, amount: u8, count: u32 },
    Install { point: u32, image: u32, limit: u32 },
    Remove { point: u32 },
    Fund { point: u32, amount: u8, count: u32 },
    Bill { point: u32 },
}

impl Request {
    /// Whether its line has bytes for it.
    #[inline(always)]
    pub fn has_bytes(&self) -> bool {
        matches!(self, Request::Write { .. } | Request::StreamWrite { .. } | Request::Serve { .. })
    }
}

/// What a line says.
pub enum Entry {
    Blank,
    Frames(u32),
    Patience(usize, u32),
    Grant(u32),
    Boot,
    Tick,
    Raw,
    Step { process: u32, count: u32 },
    Image { slot: u32 },
    Call { process: u32, request: Request },
}

/// Bytes that a line has as hex digits.
pub struct Bytes {
    bytes: [u8; MOST_BYTES],
    count: usize,
}

impl Bytes {
    pub fn new() -> Box<Bytes> {
        Box::new(Bytes { bytes: [0; MOST_BYTES], count: 0 })
    }

    pub fn list(&self) -> &[u8] {
        &self.bytes[..self.count]
    }
}

/// The first bytes of a word, as one number.
const fn key(word: &[u8]) -> u64 {
    let mut key = 0;
    let mut at = word.len();
    while at > 0 {
        at -= 1;
        key = key << 8 | word[at] as u64;
    }
    key
}

/// One in each byte.
const EACH: u64 = 0x0101_0101_0101_0101;

/// The highest bit of the lowest byte that is zero, and of some above it.
#[inline(always)]
fn zeros(word: u64) -> u64 {
    word.wrapping_sub(EACH) & !word & EACH << 7
}

/// Reads the words of a line, which ends with a newline. Each answers nothing where the line has
/// another word there.
struct Words<'a> {
    text: &'a [u8],
    at: usize,
}

impl Words<'_> {
    #[inline(always)]
    fn is_end_of_word(&self) -> bool {
        matches!(self.text[self.at], b' ' | b'\n')
    }

    #[inline(always)]
    fn take(&mut self, byte: u8) -> Option<()> {
        if self.text[self.at] != byte {
            return None;
        }
        self.at += 1;
        Some(())
    }

    /// The first word, if it is short enough for a command.
    #[inline(always)]
    fn command(&mut self) -> Option<u64> {
        let Some(first) = self.text.first_chunk() else {
            return self.short_command();
        };
        let first = u64::from_le_bytes(*first);
        let ends = zeros(first ^ EACH * u64::from(b' ')) | zeros(first ^ EACH * u64::from(b'\n'));
        if ends == 0 {
            self.at = 8;
            return (self.text.len() > 8 && self.is_end_of_word()).then_some(first);
        }
        let bits = ends.trailing_zeros() & !7;
        self.at = bits as usize / 8;
        Some(first & ((1 << bits) - 1))
    }

    /// The first word of a text that has fewer than eight bytes.
    fn short_command(&mut self) -> Option<u64> {
        while !self.is_end_of_word() {
            self.at += 1;
        }
        Some(key(&self.text[..self.at]))
    }

    fn number(&mut self) -> Option<u32> {
        let (number, end) = number_at(self.text, self.at)?;
        self.at = end;
        Some(number)
    }

    fn within(&mut self, least: u32, most: u32) -> Option<u32> {
        self.number().filter(|number| (least..=most).contains(number))
    }

    /// One of some words, by its place.
    fn one_of(&mut self, words: &[&[u8]]) -> Option<usize> {
        self.take(b' ')?;
        let first = self.at;
        while !self.is_end_of_word() {
            self.at += 1;
        }
        let word = &self.text[first..self.at];
        words.iter().position(|one| *one == word)
    }

    fn amount(&mut self) -> Option<u8> {
        self.one_of(&AMOUNTS).map(|amount| amount as u8)
    }

    fn name(&mut self) -> Option<[u8; 16]> {
        self.take(b' ')?;
        let mut name = [0; 16];
        let mut count = 0;
        while is_name_byte(self.text[self.at]) {
            *name.get_mut(count)? = self.text[self.at];
            count += 1;
            self.at += 1;
        }
        (count > 0).then_some(name)
    }

    /// Hex digits, of at most so many bytes.
    fn hex(&mut self, most: usize, into: &mut Bytes) -> Option<()> {
        self.take(b' ')?;
        into.count = 0;
        while let Some(high) = hex_digit(self.text[self.at]) {
            let low = hex_digit(self.text[self.at + 1])?;
            *into.bytes[..most].get_mut(into.count)? = high << 4 | low;
            into.count += 1;
            self.at += 2;
        }
        (into.count > 0).then_some(())
    }
}

/// The number that stands behind a space, and the place behind it. It is kept out of its callers,
/// where so many of these loops stand together that each gets slower.
#[inline(never)]
fn number_at(text: &[u8], space: usize) -> Option<(u32, usize)> {
    let [b' ', digits @ ..] = &text[space..] else {
        return None;
    };
    let mut value: u64 = 0;
    let mut count = 0;
    for byte in digits {
        let digit = byte.wrapping_sub(b'0');
        if digit > 9 {
            break;
        }
        value = value.wrapping_mul(10).wrapping_add(u64::from(digit));
        count += 1;
    }
    if !(1..=10).contains(&count) {
        return None;
    }
    Some((u32::try_from(value).ok()?, space + 1 + count))
}

#[inline]
fn hex_digit(byte: u8) -> Option<u8> {
    match byte {
        b'0'..=b'9' => Some(byte - b'0'),
        b'a'..=b'f' => Some(byte - b'a' + 10),
        b'A'..=b'F' => Some(byte - b'A' + 10),
        _ => None,
    }
}

/// What the first line of a text says, and how many bytes it has with its newline, or nothing where
/// the grammar hasn't that line there. There is a newline in the text. The bytes of a line that has
/// some are put into `bytes`.
#[inline(never)]
pub fn parse(text: &[u8], booted: bool, bytes: &mut Bytes) -> Option<(Entry, usize)> {
    let mut words = Words { text, at: 0 };
    if matches!(text[0], b'\n' | b'#') {
        let end = text.iter().position(|&byte| byte == b'\n')?;
        return Some((Entry::Blank, end + 1));
    }
    let command = words.command()?;
    let entry =
        if booted { event(command, &mut words, bytes) } else { set_up(command, &mut words) }?;
    words.take(b'\n')?;
    Some((entry, words.at))
}

fn set_up(command: u64, words: &mut Words) -> Option<Entry> {
    Some(match command {
        FRAMES => Entry::Frames(words.within(2, 64)?),
        PATIENCE => Entry::Patience(words.one_of(&KINDS)?, words.within(1, 1_000)?),
        GRANT => Entry::Grant(words.number()?),
        BOOT => Entry::Boot,
        _ => return None,
    })
}

#[inline(always)]
fn event(command: u64, words: &mut Words, bytes: &mut Bytes) -> Option<Entry> {
    Some(match command {
        TICK => Entry::Tick,
        RAW => Entry::Raw,
        STEP => Entry::Step { process: words.number()?, count: words.number()? },
        IMAGE => {
            let slot = words.number()?;
            words.hex(MOST_BYTES, bytes)?;
            Entry::Image { slot }
        }
        _ => Entry::Call { process: words.number()?, request: request(command, words, bytes)? },
    })
}

macro_rules! words {
    ($($name:ident $word:literal)*) => {
        $(const $name: u64 = key($word);)*
    };
}

#[rustfmt::skip]
words! {
    FRAMES b"frames" PATIENCE b"patience" GRANT b"grant" BOOT b"boot" TICK b"tick" RAW b"raw"
    STEP b"step" IMAGE b"image" SPAWN b"spawn" EXIT b"exit" YIELD b"yield" SYNC b"sync"
    OPEN b"open" CLOSE b"close" READ b"read" WRITE b"write" LOCK b"lock" UNLOCK b"unlock"
    POKE b"poke" PEEK b"peek" TUNE b"tune" DEFAULT b"default" GIVE b"give" INSTALL b"install"
    REMOVE b"remove" FUND b"fund" BILL b"bill" SERVE b"serve" SREAD b"sread" SWRITE b"swrite"
}

#[inline(always)]
fn request(command: u64, words: &mut Words, bytes: &mut Bytes) -> Option<Request> {
    let w = words;
    Some(match command {
        SPAWN => Request::Spawn,
        EXIT => Request::Exit,
        YIELD => Request::Yield,
        SYNC => Request::Sync,
        OPEN => Request::Open { name: w.name()? },
        CLOSE => Request::Close { descriptor: w.number()? },
        READ => {
            let (descriptor, block) = (w.number()?, w.number()?);
            Request::Read { descriptor, block, offset: w.number()?, length: w.number()? }
        }
        WRITE => {
            let (descriptor, block, offset) = (w.number()?, w.number()?, w.number()?);
            w.hex(BLOCK, bytes)?;
            Request::Write { descriptor, block, offset }
        }
        LOCK => Request::Lock { lock: w.number()? },
        UNLOCK => Request::Unlock { lock: w.number()? },
        POKE => Request::Poke { cell: w.number()?, value: w.number()? },
        PEEK => Request::Peek { cell: w.number()? },
        TUNE => Request::Tune { kind: w.number()?, parameter: w.number()?, value: w.number()? },
        DEFAULT => Request::Choose { kind: w.number()?, policy: w.number()? },
        GIVE => Request::Give { to: w.number()?, amount: w.amount()?, count: w.number()? },
        INSTALL => Request::Install { point: w.number()?, image: w.number()?, limit: w.number()? },
        REMOVE => Request::Remove { point: w.number()? },
        FUND => Request::Fund { point: w.number()?, amount: w.amount()?, count: w.number()? },
        BILL => Request::Bill { point: w.number()? },
        SERVE => {
            let port = w.number()?;
            w.hex(BLOCK, bytes)?;
            Request::Serve { port }
        }
        SREAD => {
            let (descriptor, block) = (w.number()?, w.number()?);
            Request::StreamRead { descriptor, block, offset: w.number()?, length: w.number()? }
        }
        SWRITE => {
            let (descriptor, block, offset) = (w.number()?, w.number()?, w.number()?);
            w.hex(BLOCK, bytes)?;
            Request::StreamWrite { descriptor, block, offset }
        }
        _ => return None,
    })
}

/// The words of each command behind the first: k is an amount, o a kind of object, and n any other.
/// The first four stand before `boot`.
#[rustfmt::skip]
const COMMANDS: [(&[u8], &[u8]); 30] = [
    (b"frames", b"n"), (b"patience", b"on"), (b"grant", b"n"), (b"boot", b""),
    (b"tick", b""), (b"raw", b""), (b"step", b"nn"), (b"image", b"nn"), (b"spawn", b"n"),
    (b"exit", b"n"), (b"yield", b"n"), (b"sync", b"n"), (b"open", b"nn"), (b"close", b"nn"),
    (b"read", b"nnnnn"), (b"write", b"nnnnn"), (b"lock", b"nn"), (b"unlock", b"nn"),
    (b"poke", b"nnn"), (b"peek", b"nn"), (b"tune", b"nnnn"), (b"default", b"nnn"),
    (b"give", b"nnkn"), (b"install", b"nnnn"), (b"remove", b"nn"), (b"fund", b"nnkn"),
    (b"bill", b"nn"), (b"serve", b"nnn"), (b"sread", b"nnnnn"), (b"swrite", b"nnnnn"),
];

/// Why a line that `parse` doesn't take is refused: the number of the code.
pub fn fault(line: &[u8], booted: bool) -> u8 {
    if line.len() > LONGEST {
        return 3;
    }
    let mut words = line.split(|&byte| byte == b' ');
    let first = words.next().unwrap_or_default();
    let Some(at) = COMMANDS.iter().position(|(name, _)| *name == first) else {
        return 5;
    };
    if (at >= 4) != booted {
        return 4;
    }
    let shape = COMMANDS[at].1;
    let fits = |(word, &kind): (&[u8], &u8)| match kind {
        b'k' => AMOUNTS.contains(&word),
        b'o' => KINDS.contains(&word),
        _ => !word.is_empty(),
    };
    let count = words.clone().count();
    if count == shape.len() && words.zip(shape).all(fits) { 2 } else { 1 }
}
