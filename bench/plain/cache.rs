//! The frames that hold blocks of the disk, and the order of their use.

use crate::disk::Block;

pub const FRAMES: usize = 64;

/// No frame, where the number of one is expected.
const NONE: u8 = u8::MAX;

/// What a frame in use has.
#[derive(Clone, Copy)]
pub struct Frame {
    pub owner: u8,
    pub block: u32,
    pub dirty: bool,
    pub mark: u32,
}

/// The frames. A frame that came into use stays in use, so those in use are the first ones.
pub struct Cache {
    frames: [Frame; FRAMES],
    bytes: Vec<Block>,
    used: usize,
    /// The frame that was used before another, and the one after it. Behind the last frame stands
    /// the end of the ring: the frame after it is the oldest, the one before it the newest.
    before: [u8; FRAMES + 1],
    after: [u8; FRAMES + 1],
    /// The frame of each block.
    holding: Vec<u8>,
    /// How many frames each process has.
    owned: [u32; 16],
    disk: Vec<Block>,
}

const END: usize = FRAMES;

impl Cache {
    pub fn new(frames: usize, disk: Vec<Block>) -> Cache {
        Cache {
            frames: [Frame { owner: 0, block: 0, dirty: false, mark: 0 }; FRAMES],
            bytes: vec![[0; crate::disk::BLOCK]; frames],
            used: 0,
            before: [END as u8; FRAMES + 1],
            after: [END as u8; FRAMES + 1],
            holding: vec![NONE; disk.len()],
            owned: [0; 16],
            disk,
        }
    }

    #[inline]
    pub fn find(&self, block: u32) -> Option<usize> {
        let frame = self.holding[block as usize];
        (frame != NONE).then_some(usize::from(frame))
    }

    /// The lowest frame that isn't in use.
    #[inline]
    pub fn free(&self) -> Option<usize> {
        (self.used < self.bytes.len()).then_some(self.used)
    }

    /// A frame in use.
    #[inline]
    pub fn frame(&self, frame: u32) -> Option<&Frame> {
        self.frames[..self.used].get(frame as usize)
    }

    pub fn owned(&self, process: usize) -> u32 {
        self.owned[process]
    }

    /// The frames in use, oldest first.
    #[inline]
    pub fn oldest_first(&self) -> impl Iterator<Item = usize> + '_ {
        let mut at = END;
        std::iter::from_fn(move || {
            at = usize::from(self.after[at]);
            (at != END).then_some(at)
        })
    }

    #[inline]
    fn unlink(&mut self, frame: usize) {
        let (before, after) = (self.before[frame], self.after[frame]);
        self.after[usize::from(before)] = after;
        self.before[usize::from(after)] = before;
    }

    #[inline]
    fn link_before(&mut self, frame: usize, next: usize) {
        let before = self.before[next];
        self.before[frame] = before;
        self.after[frame] = next as u8;
        self.after[usize::from(before)] = frame as u8;
        self.before[next] = frame as u8;
    }

    /// The frame becomes the newest.
    #[inline]
    pub fn touch(&mut self, frame: usize) {
        self.unlink(frame);
        self.link_before(frame, END);
    }

    /// Reads a block into a frame that isn't in use.
    pub fn fill(&mut self, frame: usize, owner: usize, block: u32) {
        self.used += 1;
        self.put(frame, owner, block);
    }

    /// Reads a block into a frame in place of what it holds. Where that isn't the candidate, the
    /// candidate takes its place in the order.
    pub fn replace(&mut self, frame: usize, candidate: usize, owner: usize, block: u32) {
        self.write_back(frame);
        if frame != candidate {
            self.unlink(candidate);
            self.link_before(candidate, frame);
        }
        self.unlink(frame);
        let old = self.frames[frame];
        self.holding[old.block as usize] = NONE;
        self.owned[usize::from(old.owner)] -= 1;
        self.put(frame, owner, block);
    }

    fn put(&mut self, frame: usize, owner: usize, block: u32) {
        self.link_before(frame, END);
        self.frames[frame] = Frame { owner: owner as u8, block, dirty: false, mark: 0 };
        self.bytes[frame] = self.disk[block as usize];
        self.holding[block as usize] = frame as u8;
        self.owned[owner] += 1;
    }

    /// Writes a frame to the disk if it was changed, and says whether it was.
    fn write_back(&mut self, frame: usize) -> bool {
        let dirty = std::mem::take(&mut self.frames[frame].dirty);
        if dirty {
            self.disk[self.frames[frame].block as usize] = self.bytes[frame];
        }
        dirty
    }

    /// Writes all changed frames, and says how many.
    pub fn sync(&mut self) -> u32 {
        (0..self.used).map(|frame| u32::from(self.write_back(frame))).sum()
    }

    #[inline]
    pub fn bytes(&self, frame: usize) -> &Block {
        &self.bytes[frame]
    }

    /// Puts bytes into a frame.
    pub fn patch(&mut self, frame: usize, offset: usize, bytes: &[u8]) {
        self.bytes[frame][offset..offset + bytes.len()].copy_from_slice(bytes);
        self.frames[frame].dirty = true;
    }

    /// Marks a frame, and gives its mark from before.
    pub fn mark(&mut self, frame: usize, mark: u32) -> u32 {
        std::mem::replace(&mut self.frames[frame].mark, mark)
    }

    /// The frames of a process are another's from here on.
    pub fn hand_over(&mut self, from: usize, to: usize) {
        for frame in &mut self.frames[..self.used] {
            if usize::from(frame.owner) == from {
                frame.owner = to as u8;
            }
        }
        self.owned[to] += std::mem::take(&mut self.owned[from]);
    }
}
