//! The memory of grafts: the segments of levels, those that grafts keep, and those from before.

use crate::kernel::{LEVELS, RECORDS_OF_A_CALL};
use crate::machine::SEGMENT;
use crate::store::{POINTS, PROCESSES};
use std::ops::Range;

/// The first number of the segments that are kept, of those from before, and of none.
const KEPT: usize = PROCESSES * LEVELS;
const BEFORE: usize = KEPT + PROCESSES * POINTS;
const END: usize = BEFORE + PROCESSES * RECORDS_OF_A_CALL;

/// A segment that something has: a level, a graft that keeps it, or a record of a call.
#[derive(Clone, Copy)]
pub struct Slot(usize);

impl Slot {
    pub fn of_level(process: usize, depth: usize) -> Slot {
        Slot(LEVELS * process + depth)
    }

    pub fn kept(process: usize, point: usize) -> Slot {
        Slot(KEPT + POINTS * process + point)
    }

    pub fn before(process: usize, record: usize) -> Slot {
        Slot(BEFORE + RECORDS_OF_A_CALL * process + record)
    }
}

/// All segments. One that changes hands isn't copied: two slots change places.
pub struct Segments {
    bytes: Vec<u8>,
    places: [u16; END],
}

impl Segments {
    pub fn new() -> Segments {
        Segments { bytes: vec![0; END * SEGMENT], places: std::array::from_fn(|slot| slot as u16) }
    }

    /// Where the segment of a slot stands now.
    #[inline]
    pub fn place(&self, slot: Slot) -> u16 {
        self.places[slot.0]
    }

    pub fn swap(&mut self, one: Slot, other: Slot) {
        self.places.swap(one.0, other.0);
    }

    #[inline]
    pub fn at(&self, place: u16) -> &[u8; SEGMENT] {
        &self.bytes.as_chunks().0[usize::from(place)]
    }

    #[inline]
    pub fn at_mut(&mut self, place: u16) -> &mut [u8; SEGMENT] {
        &mut self.bytes.as_chunks_mut().0[usize::from(place)]
    }

    /// A part of the segment of a slot becomes what it is where these bytes stand at the beginning
    /// of the segment, and zeros behind them.
    pub fn fill(&mut self, into: Slot, data: &[u8], part: Range<usize>) {
        let data = data.get(part.start..).unwrap_or_default();
        let segment = &mut self.at_mut(self.place(into))[part];
        let (first, rest) = segment.split_at_mut(data.len().min(segment.len()));
        first.copy_from_slice(&data[..first.len()]);
        rest.fill(0);
    }

    /// The segment of the first slot becomes what that of the second one is.
    pub fn copy(&mut self, into: Slot, from: Slot) {
        let from = usize::from(self.place(from)) * SEGMENT;
        let into = usize::from(self.place(into)) * SEGMENT;
        self.bytes.copy_within(from..from + SEGMENT, into);
    }
}
