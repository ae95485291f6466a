//! Sealed images: what is refused, and what is loaded.

use crate::machine::{Instruction, Operation, ROOM};
use crate::sha256::hmac;

/// The bytes before the code, in versions 1 and 2.
const HEADS: [usize; 2] = [16, 24];
const SEAL: usize = 32;
const MOST_DATA: usize = 4_096;

/// A loaded image. Behind its code stand instructions that no run comes to.
pub struct Image {
    pub code: [Instruction; ROOM],
    pub count: usize,
    pub data: Vec<u8>,
    /// Whether there is an access to memory in the code, so that a level needs its segment.
    pub has_access: bool,
    /// Whether its grafts keep their segments.
    pub keeps: bool,
}

/// Why an image is refused: the number of the code, and the place where it tells one.
pub struct Fault(pub u8, pub Option<usize>);

/// The image of sealed bytes. There is one key, number 0.
pub fn load(key: &[u8; 32], bytes: &[u8]) -> Result<Box<Image>, Fault> {
    let word =
        |at: usize| u32::from_le_bytes([bytes[at], bytes[at + 1], bytes[at + 2], bytes[at + 3]]);
    if bytes.len() < HEADS[0] + SEAL {
        return Err(Fault(1, None));
    }
    if &bytes[..4] != b"VGR1" {
        return Err(Fault(2, None));
    }
    let head = match word(4) {
        version @ 1..=2 => HEADS[version as usize - 1],
        _ => return Err(Fault(3, None)),
    };
    if bytes.len() < head + SEAL {
        return Err(Fault(1, None));
    }
    let (count, length) = (word(8) as usize, word(12) as usize);
    if count > ROOM || length > MOST_DATA {
        return Err(Fault(4, None));
    }
    let data = head + 8 * count;
    if bytes.len() != data + length + SEAL {
        return Err(Fault(1, None));
    }
    let flags = if head > HEADS[0] { word(16) } else { 0 };
    if flags > 1 {
        return Err(Fault(12, None));
    }
    if head > HEADS[0] && word(20) != 0 {
        return Err(Fault(13, None));
    }
    let (text, seal) = bytes.split_at(data + length);
    let differs =
        hmac(key, text).iter().zip(seal).fold(0, |all, (left, right)| all | (left ^ right));
    if differs != 0 {
        return Err(Fault(5, None));
    }
    let mut image = Box::new(Image {
        code: [Instruction::NONE; ROOM],
        count,
        data: text[data..].to_vec(),
        has_access: false,
        keeps: flags == 1,
    });
    for (place, bytes) in text[head..data].chunks_exact(8).enumerate() {
        let bytes = bytes.try_into().expect("eight bytes");
        image.code[place] = Instruction::decode(bytes).ok_or(Fault(6, Some(place)))?;
    }
    if !cfg!(unboxed) {
        verify(&image.code[..count])?;
    }
    image.has_access = image.code[..count].iter().any(Instruction::is_access);
    Ok(image)
}

/// Refuses code that isn't boxed.
fn verify(code: &[Instruction]) -> Result<(), Fault> {
    // The place of each instruction in its triple, from 1, and 0 outside of one.
    let mut places = [0; ROOM];
    for place in 0..code.len().saturating_sub(2) {
        if is_triple(&code[place..place + 3]) {
            places[place..place + 3].copy_from_slice(&[1, 2, 3]);
        }
    }
    for (place, i) in code.iter().enumerate() {
        let target = i.number as usize;
        let fault = if places[place] == 0 && (i.a.max(i.b).max(i.c) >= 14) {
            7
        } else if i.is_jump() && (target >= code.len() || places[target] > 1) {
            8
        } else if i.is_access() && places[place] == 0 {
            9
        } else if i.operation == Operation::Call && i.number > 15 {
            10
        } else {
            continue;
        };
        return Err(Fault(fault, Some(place)));
    }
    match code.last() {
        Some(i) if matches!(i.operation, Operation::Ret | Operation::Jmp | Operation::Trap) => {
            Ok(())
        }
        _ => Err(Fault(11, None)),
    }
}

/// Whether three instructions are an access whose address the first two mask.
fn is_triple(code: &[Instruction]) -> bool {
    let [mask, join, access] = code else {
        return false;
    };
    let bits = match access.operation {
        Operation::Ldw | Operation::Stw => 0xffc,
        Operation::Ldb | Operation::Stb => 0xfff,
        _ => return false,
    };
    mask.operation == Operation::Andi
        && (mask.a, mask.number) == (14, bits)
        && mask.b < 14
        && join.operation == Operation::Or
        && (join.a, join.b, join.c) == (14, 14, 15)
        && access.a < 14
        && access.b == 14
}
