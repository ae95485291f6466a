//! The values of the kernel's objects, the cache left out.

use crate::cache::Cache;
use crate::disk::{self, Block, File};
use crate::ports::{Handlers, PORTS};

pub const PROCESSES: usize = 16;
pub const POINTS: usize = 16;
pub const FILES: usize = 4;
pub const CELLS: usize = 4;
pub const USER_LOCKS: usize = 16;

/// The kinds of amounts.
pub const STEPS: usize = 0;
pub const RECORDS: usize = 1;
pub const LOCKS: usize = 2;

/// The kinds of policies.
pub const AHEAD: usize = 0;
pub const EVICTION: usize = 1;
pub const SCHEDULING: usize = 2;

/// The point that is asked about eviction, and the one about scheduling. Those below are asked what
/// to read ahead of the descriptor of that number.
pub const VICTIM: usize = 4;
pub const NEXT: usize = 5;

/// The points of ports begin here, and behind them stand those that bytes of a file go through on
/// their way out and in.
pub const FIRST_PORT: usize = 6;
pub const OUT: usize = 14;
pub const IN: usize = 15;

/// What a read file has at most ahead.
pub const MOST_AHEAD: u32 = 8;

/// An open file.
#[derive(Clone, Copy)]
pub struct Open {
    /// The number of the file among the usable ones.
    pub file: u8,
    /// The block behind the one that was read last, and whether that one was the next itself.
    pub next: u32,
    pub sequential: bool,
    /// How many blocks are read ahead at most.
    pub window: u32,
    /// The blocks of the file that are still to be read ahead.
    pub start: u32,
    pub count: u32,
}

/// What a process has of each amount, and what it has spent.
#[derive(Clone, Copy, Default)]
pub struct Account {
    pub has: [u64; 3],
    pub spent: [u64; 3],
}

/// A graft at a point.
#[derive(Clone, Copy)]
pub struct Graft {
    pub image: u8,
    pub limit: u32,
    pub billed: bool,
    /// Whether a segment is kept for it.
    pub has_kept: bool,
    pub has: [u64; 3],
}

/// The policies of a kind: the chosen one, and the parameter of each. Policy 0 has none.
#[derive(Clone, Copy)]
pub struct Policies {
    pub chosen: usize,
    pub parameters: [u32; 3],
}

/// How many policies there are of each kind, and the highest value of a parameter.
pub const POLICIES: [(u32, u32); 3] = [(3, 8), (2, 255), (2, 39)];

impl Policies {
    /// The chosen policy's parameter, if it has one.
    pub fn parameter(&mut self) -> Option<&mut u32> {
        (self.chosen != 0).then(|| &mut self.parameters[self.chosen])
    }

    /// The least of these wins, and the first of several.
    fn rank(&self, value: u32) -> u32 {
        value.max(self.parameters[1])
    }
}

/// The values of all objects.
pub struct Store {
    /// The living processes, front first, and as bits.
    pub queue: [u8; PROCESSES],
    pub count: usize,
    pub living: u16,
    pub nice: [u32; PROCESSES],
    pub slices: [u32; PROCESSES],
    pub cells: [[u32; CELLS]; PROCESSES],
    pub files: [[Option<Open>; FILES]; PROCESSES],
    pub accounts: [Account; PROCESSES],
    pub grafts: [[Option<Graft>; POINTS]; PROCESSES],
    /// The points of each process at which a graft stands, as bits.
    pub standing: [u16; PROCESSES],
    pub locks: [Option<u8>; USER_LOCKS],
    pub policies: [Policies; 3],
    pub handlers: [Handlers; PORTS],
    pub cache: Cache,
    pub directory: Vec<File>,
}

impl Store {
    pub fn new(frames: usize, grant: u32, disk: Vec<Block>) -> Store {
        let mut accounts = [Account::default(); PROCESSES];
        accounts[0].has = [u64::from(grant); 3];
        let mut store = Store {
            queue: [0; PROCESSES],
            count: 0,
            living: 0,
            nice: [0; PROCESSES],
            slices: [0; PROCESSES],
            cells: [[0; CELLS]; PROCESSES],
            files: [[None; FILES]; PROCESSES],
            accounts,
            grafts: [[None; POINTS]; PROCESSES],
            standing: [0; PROCESSES],
            locks: [None; USER_LOCKS],
            policies: [
                Policies { chosen: 1, parameters: [0, 2, 1] },
                Policies { chosen: 0, parameters: [0; 3] },
                Policies { chosen: 0, parameters: [0; 3] },
            ],
            handlers: [Handlers::NONE; PORTS],
            directory: disk::directory(&disk),
            cache: Cache::new(frames, disk),
        };
        store.join(0);
        store
    }

    /// The living processes, front first.
    #[inline]
    pub fn queue(&self) -> &[u8] {
        &self.queue[..self.count]
    }

    #[inline]
    pub fn lives(&self, process: u32) -> bool {
        process < PROCESSES as u32 && self.living >> process & 1 == 1
    }

    /// A process begins, at the back of the queue.
    pub fn join(&mut self, process: usize) {
        self.queue[self.count] = process as u8;
        self.count += 1;
        self.living |= 1 << process;
        (self.nice[process], self.slices[process]) = (20, 0);
    }

    /// A process goes to the back of the queue.
    #[inline]
    pub fn to_back(&mut self, process: usize) {
        let queue = &mut self.queue[..self.count];
        let mut at = 0;
        while at + 1 < queue.len() {
            if usize::from(queue[at]) == process {
                queue.swap(at, at + 1);
            }
            at += 1;
        }
    }

    /// A process leaves. What it has goes to process 0.
    pub fn leave(&mut self, process: usize) {
        self.to_back(process);
        self.count -= 1;
        self.living &= !(1 << process);
        self.cells[process] = [0; CELLS];
        self.files[process] = [None; FILES];
        for lock in &mut self.locks {
            if *lock == Some(process as u8) {
                *lock = None;
            }
        }
        while self.standing[process] != 0 {
            self.remove(process, self.standing[process].trailing_zeros() as usize);
        }
        for handlers in &mut self.handlers {
            handlers.forget(process);
        }
        let left = std::mem::take(&mut self.accounts[process]);
        let root = &mut self.accounts[0];
        for kind in 0..3 {
            root.has[kind] += left.has[kind];
            root.spent[kind] += left.spent[kind];
        }
        self.cache.hand_over(process, 0);
    }

    /// The graft at a point is taken out. What it has goes to its process.
    pub fn remove(&mut self, process: usize, point: usize) {
        self.standing[process] &= !(1 << point);
        if let Some(graft) = self.grafts[process][point].take() {
            for (has, left) in self.accounts[process].has.iter_mut().zip(graft.has) {
                *has += left;
            }
        }
    }

    /// What pays for a graft, and what its process has spent.
    #[inline]
    pub fn payer(&mut self, process: usize, point: usize) -> (&mut [u64; 3], &mut [u64; 3]) {
        let Account { has, spent } = &mut self.accounts[process];
        match &mut self.grafts[process][point] {
            Some(graft) if !graft.billed => (&mut graft.has, spent),
            _ => (has, spent),
        }
    }

    /// How many steps the payer of a graft has.
    #[inline]
    pub fn funds(&self, process: usize, point: usize) -> u64 {
        match &self.grafts[process][point] {
            Some(graft) if !graft.billed => graft.has[STEPS],
            _ => self.accounts[process].has[STEPS],
        }
    }

    /// One of an amount is paid for a graft, if there is one.
    #[inline]
    pub fn pay(&mut self, process: usize, point: usize, amount: usize) -> bool {
        let (has, spent) = self.payer(process, point);
        if has[amount] == 0 {
            return false;
        }
        has[amount] -= 1;
        spent[amount] += 1;
        true
    }

    /// What the policies would read ahead of an open file: the first block, and how many.
    #[inline]
    pub fn ahead(&self, file: &Open) -> (u32, u32) {
        let blocks = self.directory[usize::from(file.file)].blocks;
        let start = file.next.min(blocks);
        let policies = &self.policies[AHEAD];
        let count = match policies.chosen {
            0 => 0,
            1 if !file.sequential => 0,
            chosen => policies.parameters[chosen],
        };
        (start, count.min(file.window).min(blocks - start))
    }

    /// The frame that the policy would evict, of those of one process or of all.
    #[inline]
    pub fn victim(&self, owner: Option<usize>) -> Option<usize> {
        let policies = &self.policies[EVICTION];
        let frame = |at: &usize| self.cache.frame(*at as u32).expect("the frame is in use");
        let mut frames = self
            .cache
            .oldest_first()
            .filter(|at| owner.is_none_or(|owner| usize::from(frame(at).owner) == owner));
        match policies.chosen {
            0 => frames.next(),
            _ => frames.min_by_key(|at| policies.rank(frame(at).mark)),
        }
    }

    /// The process that the policy would let run next.
    #[inline]
    pub fn next(&self) -> usize {
        let policies = &self.policies[SCHEDULING];
        let first = match policies.chosen {
            0 => self.queue[0],
            _ => {
                let rank = |process: &&u8| policies.rank(self.nice[usize::from(**process)]);
                *self.queue().iter().min_by_key(rank).expect("process 0 lives")
            }
        };
        usize::from(first)
    }
}
