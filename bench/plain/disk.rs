//! The sample disk and its directory.

pub const BLOCK: usize = 512;
pub type Block = [u8; BLOCK];

const BLOCKS: usize = 64;
const FILES: [(&str, u32, u32, u32); 3] =
    [("alpha", 1, 8, 4_096), ("beta", 9, 40, 20_480), ("gamma", 49, 3, 1_100)];

/// A usable file: its blocks stand one after another.
#[derive(Clone, Copy)]
pub struct File {
    /// The name, with zeros after it.
    pub name: [u8; 16],
    pub start: u32,
    pub blocks: u32,
    pub length: u32,
}

/// The blocks of the sample disk.
pub fn sample() -> Vec<Block> {
    let mut disk: Vec<Block> =
        (0..BLOCKS).map(|block| std::array::from_fn(|at| (31 * block + at) as u8)).collect();
    disk[0] = [0; BLOCK];
    for (entry, (name, start, blocks, length)) in disk[0].chunks_exact_mut(32).zip(FILES) {
        entry[..name.len()].copy_from_slice(name.as_bytes());
        for (field, value) in entry[16..].chunks_exact_mut(4).zip([start, blocks, length]) {
            field.copy_from_slice(&value.to_le_bytes());
        }
    }
    disk
}

/// Whether a byte may stand in a name.
pub fn is_name_byte(byte: u8) -> bool {
    matches!(byte, b'a'..=b'z' | b'0'..=b'9' | b'.' | b'_' | b'-')
}

/// The usable files of a directory, in order. A file's number is its place among them.
pub fn directory(disk: &[Block]) -> Vec<File> {
    let mut files: Vec<File> = Vec::new();
    for entry in disk[0].chunks_exact(32) {
        let word = |at: usize| {
            u32::from_le_bytes([entry[at], entry[at + 1], entry[at + 2], entry[at + 3]])
        };
        let name: [u8; 16] = entry[..16].try_into().expect("16 bytes");
        let length = name.iter().position(|&byte| byte == 0).unwrap_or(16);
        let file = File { name, start: word(16), blocks: word(20), length: word(24) };
        let (start, blocks) = (u64::from(file.start), u64::from(file.blocks));
        let usable = length > 0
            && name[..length].iter().all(|&byte| is_name_byte(byte))
            && name[length..].iter().all(|&byte| byte == 0)
            && start >= 1
            && start + blocks <= disk.len() as u64
            && u64::from(file.length) <= BLOCK as u64 * blocks
            && files.iter().all(|earlier| earlier.name != name);
        if usable {
            files.push(file);
        }
    }
    files
}
