//! A plain kernel that writes the lines which `vino run KEY` and `vino demo N` write, to compare
//! the speed of the two. README.md says what it leaves out.

mod cache;
mod calls;
mod demo;
mod disk;
mod graft;
mod image;
mod kernel;
mod machine;
mod object;
mod ports;
mod raw;
mod script;
mod segments;
mod session;
mod sha256;
mod store;
mod streams;
mod text;

use session::Session;
use std::ffi::OsString;
use std::fs::File;
use std::io::{self, ErrorKind, Read, Write};
use std::os::fd::AsFd;
use std::process::ExitCode;

const MOST_BYTES: usize = 16_777_216;

/// How many bytes are read at once.
const PIECE: usize = 65_536;

const USAGE: &str = "usage: vino run KEYS [PATH] | box KEYS [keep] | check KEYS | reseal KEYS | asm | dis | lang | audit KEYS | demo N\n";

/// The status with which the program ends. Where nothing is wrong it is 0.
struct Status(u8);

const USED_WRONGLY: Status = Status(1);
const REFUSED: Status = Status(2);
const NOT_READ: Status = Status(3);
const NOT_WRITTEN: Status = Status(4);
const TOO_MUCH: Status = Status(7);

/// The standard streams without buffers, so that what an event writes is one call of the system.
struct Streams {
    input: File,
    output: File,
}

impl Streams {
    fn standard() -> io::Result<Streams> {
        Ok(Streams {
            input: File::from(io::stdin().as_fd().try_clone_to_owned()?),
            output: File::from(io::stdout().as_fd().try_clone_to_owned()?),
        })
    }

    /// Reads some bytes; none are the end.
    fn read(&mut self, bytes: &mut [u8]) -> Result<usize, Status> {
        loop {
            match self.input.read(bytes) {
                Ok(count) => return Ok(count),
                Err(error) if error.kind() == ErrorKind::Interrupted => {}
                Err(_) => return Err(NOT_READ),
            }
        }
    }

    fn write(&mut self, bytes: &[u8]) -> Result<(), Status> {
        self.output.write_all(bytes).map_err(|_| NOT_WRITTEN)
    }

    /// Writes what a session has to write.
    #[inline]
    fn flush(&mut self, session: &mut Session) -> Result<(), Status> {
        let text = session.text();
        if text.bytes().is_empty() {
            return Ok(());
        }
        self.write(text.bytes())?;
        text.clear();
        Ok(())
    }
}

/// Bytes that were read and not run yet.
struct Buffer {
    bytes: Vec<u8>,
    first: usize,
    end: usize,
    /// How many bytes were read in all.
    taken: usize,
}

impl Buffer {
    fn new() -> Buffer {
        Buffer { bytes: vec![0; script::LONGEST + 1 + PIECE], first: 0, end: 0, taken: 0 }
    }

    /// Reads more, and says whether there was more. At most one byte too many is read.
    fn fill(&mut self, streams: &mut Streams) -> Result<bool, Status> {
        self.bytes.copy_within(self.first..self.end, 0);
        (self.first, self.end) = (0, self.end - self.first);
        let most = PIECE.min(MOST_BYTES + 1 - self.taken);
        let count = streams.read(&mut self.bytes[self.end..self.end + most])?;
        self.end += count;
        self.taken += count;
        Ok(count > 0)
    }

    /// The end of the whole lines that aren't run yet and may be.
    fn whole(&self) -> usize {
        let end = self.end - usize::from(self.taken > MOST_BYTES);
        let lines = &self.bytes[self.first..end];
        self.first + lines.iter().rposition(|&byte| byte == b'\n').map_or(0, |last| last + 1)
    }
}

/// Runs a script.
fn run(key: [u8; 32], streams: &mut Streams) -> Result<(), Status> {
    let mut session = Session::new(key);
    let mut buffer = Buffer::new();
    loop {
        let is_more = buffer.fill(streams)?;
        let whole = buffer.whole();
        while buffer.first < whole {
            let count = session.run_line(&buffer.bytes[buffer.first..whole]);
            streams.flush(&mut session)?;
            buffer.first += count.ok_or(REFUSED)?;
        }
        let is_over = buffer.taken > MOST_BYTES;
        let rest = buffer.end - buffer.first - usize::from(is_over);
        if rest > script::LONGEST || (!is_more && rest > 0) {
            session.refuse_rest(if rest > script::LONGEST { 3 } else { 6 });
            streams.flush(&mut session)?;
            return Err(REFUSED);
        }
        if is_over {
            return Err(TOO_MUCH);
        }
        if !is_more {
            session.left();
            return streams.flush(&mut session);
        }
    }
}

/// The bytes of 64 hex digits.
fn key(word: &str) -> Option<[u8; 32]> {
    let mut key = [0; 32];
    if word.len() != 64 || !word.is_ascii() {
        return None;
    }
    for (byte, digits) in key.iter_mut().zip(word.as_bytes().chunks_exact(2)) {
        let digit = |digit: u8| char::from(digit).to_digit(16);
        *byte = (digit(digits[0])? << 4 | digit(digits[1])?) as u8;
    }
    Some(key)
}

/// 1 to 10 decimal digits, of a value that has 32 bits.
fn number(word: &str) -> Option<u32> {
    let fits = (1..=10).contains(&word.len()) && word.bytes().all(|byte| byte.is_ascii_digit());
    if fits { word.parse().ok() } else { None }
}

fn do_words(words: &[OsString], streams: &mut Streams) -> Result<(), Status> {
    let words: Vec<&str> = words.iter().map(|word| word.to_str().unwrap_or_default()).collect();
    match words[..] {
        ["run", word] => {
            if let Some(key) = key(word) {
                return run(key, streams);
            }
        }
        ["demo", word] => {
            if let Some(number) = number(word) {
                return streams.write(&demo::demo(number));
            }
        }
        _ => {}
    }
    streams.write(USAGE.as_bytes())?;
    Err(USED_WRONGLY)
}

fn main() -> ExitCode {
    let words: Vec<OsString> = std::env::args_os().skip(1).collect();
    let Ok(mut streams) = Streams::standard() else {
        return ExitCode::from(NOT_READ.0);
    };
    match do_words(&words, &mut streams) {
        Ok(()) => ExitCode::SUCCESS,
        Err(Status(status)) => ExitCode::from(status),
    }
}
