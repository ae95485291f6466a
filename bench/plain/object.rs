//! The objects that calls need, and which levels of which calls hold them.

use crate::text::Text;

const PROCESSES: usize = 16;
const POINTS: usize = 16;
const LEVELS: usize = 4;

/// How many objects there are.
const OBJECTS: usize = 421;

/// How many objects a level can hold at most: those of one installer, and those of one piece.
const HELD: usize = 64;

/// The first number of each kind of object, in the order of the kinds.
const FIRST: [u16; 8] = [0, 256, 272, 336, 400, 401, 402, 418];

/// The names of the kinds in a script.
pub const KINDS: [&[u8]; 8] =
    [b"graft", b"acct", b"cell", b"open", b"queue", b"cache", b"lock", b"pol"];

/// Something that a call can hold, by its number.
#[derive(Clone, Copy, PartialEq, Eq)]
pub struct Object(u16);

/// How a call holds an object, or wants to.
#[derive(Clone, Copy, PartialEq, Eq)]
pub enum Mode {
    Shared,
    Exclusive,
}

impl Object {
    pub const QUEUE: Object = Object(FIRST[4]);
    pub const CACHE: Object = Object(FIRST[5]);

    pub fn graft(process: usize, point: usize) -> Object {
        Object((process * POINTS + point) as u16)
    }

    pub fn account(process: usize) -> Object {
        Object(FIRST[1] + process as u16)
    }

    pub fn cell(process: usize, cell: usize) -> Object {
        Object(FIRST[2] + (process * 4 + cell) as u16)
    }

    pub fn file(process: usize, descriptor: usize) -> Object {
        Object(FIRST[3] + (process * 4 + descriptor) as u16)
    }

    pub fn lock(lock: usize) -> Object {
        Object(FIRST[6] + lock as u16)
    }

    pub fn policy(kind: usize) -> Object {
        Object(FIRST[7] + kind as u16)
    }

    /// The number of its kind.
    pub fn kind(self) -> usize {
        FIRST.iter().rposition(|&first| first <= self.0).unwrap_or(0)
    }

    /// Writes a space and its name.
    pub fn write(self, text: &mut Text) {
        let kind = self.kind();
        let number = u64::from(self.0 - FIRST[kind]);
        let names = [" Graft", " Acct", " Cell", " Open", " Queue", " Cache", " Lock", " Pol"];
        text.word(names[kind]);
        let (first, second) = match kind {
            0 => (number / POINTS as u64, Some(number % POINTS as u64)),
            2 | 3 => (number / 4, Some(number % 4)),
            4 | 5 => return,
            _ => (number, None),
        };
        text.word("(");
        text.number(first);
        if let Some(second) = second {
            text.word(",");
            text.number(second);
        }
        text.word(")");
    }
}

/// The objects that a level holds.
#[derive(Clone, Copy)]
struct Held {
    count: usize,
    objects: [u16; HELD],
}

/// Which levels of which calls hold which objects.
pub struct Holdings {
    /// The processes whose calls hold an object, and those that hold it exclusively.
    any: [u16; OBJECTS],
    exclusive: [u16; OBJECTS],
    /// How the levels of a call hold an object: two bits for each, shared and exclusive.
    modes: [[u8; OBJECTS]; PROCESSES],
    held: [[Held; LEVELS]; PROCESSES],
    /// Whether who is in whose way may have changed since this was last made false.
    pub changed: bool,
}

impl Holdings {
    pub fn new() -> Holdings {
        Holdings {
            any: [0; OBJECTS],
            exclusive: [0; OBJECTS],
            modes: [[0; OBJECTS]; PROCESSES],
            held: [[Held { count: 0, objects: [0; HELD] }; LEVELS]; PROCESSES],
            changed: false,
        }
    }

    /// The lowest other process whose call is in the way.
    #[inline]
    pub fn in_the_way(&self, process: usize, object: Object, mode: Mode) -> Option<usize> {
        let at = usize::from(object.0);
        let all = match mode {
            Mode::Shared => self.exclusive[at],
            Mode::Exclusive => self.any[at],
        };
        let others = all & !(1 << process);
        (others != 0).then(|| others.trailing_zeros() as usize)
    }

    /// Whether a level of the call holds an object.
    pub fn holds(&self, process: usize, object: Object) -> bool {
        self.modes[process][usize::from(object.0)] != 0
    }

    /// Whether a level of the call holds an object itself.
    #[inline(always)]
    pub fn has(&self, process: usize, level: usize, object: Object) -> bool {
        self.modes[process][usize::from(object.0)] >> (2 * level) & 3 != 0
    }

    /// The level holds the object from here on, at least so.
    #[inline]
    pub fn touch(&mut self, process: usize, level: usize, object: Object, mode: Mode) {
        let at = usize::from(object.0);
        let modes = self.modes[process][at];
        let own = modes >> (2 * level) & 3;
        let wanted = match mode {
            Mode::Shared => 1,
            Mode::Exclusive => 2,
        };
        if own >= wanted {
            return;
        }
        if own == 0 {
            let held = &mut self.held[process][level];
            held.objects[held.count] = object.0;
            held.count += 1;
        }
        self.modes[process][at] = modes | wanted << (2 * level);
        self.changed = true;
        self.any[at] |= 1 << process;
        if mode == Mode::Exclusive {
            self.exclusive[at] |= 1 << process;
        }
    }

    /// What a level holds is held by the level outside it from here on.
    pub fn merge(&mut self, process: usize, level: usize) {
        let inner = self.held[process][level];
        self.held[process][level].count = 0;
        for &object in &inner.objects[..inner.count] {
            let modes = &mut self.modes[process][usize::from(object)];
            let own = *modes >> (2 * level) & 3;
            *modes &= !(3 << (2 * level));
            if *modes >> (2 * level - 2) & 3 == 0 {
                let outer = &mut self.held[process][level - 1];
                outer.objects[outer.count] = object;
                outer.count += 1;
            }
            *modes |= own << (2 * level - 2);
        }
    }

    /// The level and those inside it hold nothing any more.
    pub fn release(&mut self, process: usize, from: usize) {
        self.changed = true;
        for level in from..LEVELS {
            for at in 0..self.held[process][level].count {
                let object = usize::from(self.held[process][level].objects[at]);
                let modes = &mut self.modes[process][object];
                *modes &= !(3 << (2 * level));
                if *modes == 0 {
                    self.any[object] &= !(1 << process);
                }
                if *modes & 0b1010_1010 == 0 {
                    self.exclusive[object] &= !(1 << process);
                }
            }
            self.held[process][level].count = 0;
        }
    }

    /// The outermost level of the call that is in the way of who wants an object so.
    pub fn outermost(&self, process: usize, object: Object, wanted: Mode) -> usize {
        let modes = self.modes[process][usize::from(object.0)];
        let mask = match wanted {
            Mode::Shared => 0b1010_1010,
            Mode::Exclusive => 0b1111_1111,
        };
        (modes & mask).trailing_zeros() as usize / 2
    }
}
