//! The script that `demo` generates, and the line that tells of its run.

use crate::session::Session;
use crate::sha256::{Sha256, hmac};
use crate::text::Text;
use std::io::Write;

const KEY: [u8; 32] = [0; 32];
const DRAWS: usize = 5_000;

/// The code of a graft that reads ahead what is left of three blocks, or three.
const THREE: [[u8; 8]; 8] = [
    [4, 4, 2, 0, 0, 0, 0, 0],
    [1, 5, 0, 0, 3, 0, 0, 0],
    [13, 6, 4, 5, 0, 0, 0, 0],
    [22, 6, 0, 0, 6, 0, 0, 0],
    [2, 1, 5, 0, 0, 0, 0, 0],
    [26, 0, 0, 0, 0, 0, 0, 0],
    [2, 1, 4, 0, 0, 0, 0, 0],
    [26, 0, 0, 0, 0, 0, 0, 0],
];

/// The code of a graft that gives its process's newest frame.
const NEWEST: [[u8; 8]; 4] = [
    [23, 0, 0, 0, 6, 0, 0, 0],
    [14, 0, 0, 0, 255, 255, 255, 255],
    [23, 0, 0, 0, 7, 0, 0, 0],
    [26, 0, 0, 0, 0, 0, 0, 0],
];

/// A line that loads a sealed image of this code.
fn image_line(slot: u32, code: &[[u8; 8]]) -> String {
    let mut bytes = b"VGR1\x02\0\0\0".to_vec();
    bytes.extend((code.len() as u32).to_le_bytes());
    bytes.extend([0; 12]);
    bytes.extend(code.as_flattened());
    let seal = hmac(&KEY, &bytes);
    bytes.extend(seal);
    let digits: String = bytes.iter().map(|byte| format!("{byte:02x}")).collect();
    format!("image {slot} {digits}\n")
}

fn head() -> String {
    let mut lines = String::from("frames 8\nboot\n");
    lines += &image_line(0, &THREE);
    lines += &image_line(1, &NEWEST);
    lines += "spawn 0\nspawn 0\nspawn 0\n";
    lines.extend((1..4).map(|p| format!("give 0 {p} steps 200000\n")));
    lines.extend((0..4).map(|p| format!("open {p} beta\n")));
    for p in 1..4 {
        lines += &format!("install {p} 0 0 64\nbill {p} 0\ninstall {p} 4 1 64\nbill {p} 4\n");
    }
    lines
}

/// The line of a draw.
fn write_draw(x: u32, line: &mut Vec<u8>) {
    let (p, i) = (x / 65_536 % 4, x / 2_097_152 % 40);
    let written = match x / 262_144 % 8 {
        0..=2 => writeln!(line, "read {p} 0 {i} 0 4"),
        3 => writeln!(line, "write {p} 0 {i} 0 {x:08x}"),
        4 => writeln!(line, "yield {p}"),
        5 => writeln!(line, "tick"),
        _ => writeln!(line, "step {p} 20"),
    };
    written.expect("a vector takes all bytes");
}

/// Runs lines, and takes what they write into the tally.
fn run(session: &mut Session, mut lines: &[u8], tally: &mut Tally) {
    while !lines.is_empty() {
        let count = session.run_line(lines).expect("the line is in the grammar");
        lines = &lines[count..];
        tally.add(session.text());
    }
}

/// How many lines were written, and their hash.
struct Tally {
    lines: u64,
    hash: Sha256,
}

impl Tally {
    fn add(&mut self, text: &mut Text) {
        self.lines += text.bytes().iter().filter(|&&byte| byte == b'\n').count() as u64;
        self.hash.add(text.bytes());
        text.clear();
    }
}

/// The line of a run of the script that is generated from a number.
pub fn demo(number: u32) -> Vec<u8> {
    let mut session = Session::new(KEY);
    let mut tally = Tally { lines: 0, hash: Sha256::new() };
    run(&mut session, head().as_bytes(), &mut tally);
    let mut x = number % (1 << 31);
    let mut line = Vec::new();
    for _ in 0..DRAWS {
        x = x.wrapping_mul(1_103_515_245).wrapping_add(12_345) % (1 << 31);
        line.clear();
        write_draw(x, &mut line);
        run(&mut session, &line, &mut tally);
    }
    session.left();
    tally.add(session.text());
    let mut text = Text::new();
    let told = session.text();
    for (word, value) in [
        ("demo", u64::from(number)),
        (" lines", tally.lines),
        (" ok", told.ended.into()),
        (" refused", told.refused.into()),
        (" drops", told.dropped.into()),
    ] {
        text.word(word);
        text.next(value);
    }
    text.word(" digest ");
    text.hex(&tally.hash.finish());
    text.end();
    text.bytes().to_vec()
}
