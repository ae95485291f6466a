//! The rows of the kernel's whole state.

use crate::graft::{Change, Level};
use crate::kernel::{Call, Kernel};
use crate::store::*;

impl Kernel {
    /// Writes all rows.
    pub fn event_of_raw(&mut self, number: u32) {
        self.row(number, "clock", &[self.clock.into()]);
        self.raw_queue(number);
        for p in self.living() {
            let Account { has, spent } = self.store.accounts[p];
            let [a, b, c] = has;
            let [d, e, f] = spent;
            self.row(number, "acct", &[p as u64, a, b, c, d, e, f]);
        }
        for p in self.living() {
            let [a, b, c, d] = self.store.cells[p].map(u64::from);
            self.row(number, "cells", &[p as u64, a, b, c, d]);
        }
        self.raw_files(number);
        self.raw_grafts(number);
        self.raw_policies(number);
        self.raw_cache(number);
        for (lock, holder) in self.store.locks.into_iter().enumerate() {
            if let Some(holder) = holder {
                self.row(number, "lock", &[lock as u64, holder.into()]);
            }
        }
        self.raw_calls(number);
    }

    /// The living processes by their numbers.
    fn living(&self) -> impl Iterator<Item = usize> + use<> {
        let living = self.store.living;
        (0..PROCESSES).filter(move |process| living >> process & 1 == 1)
    }

    fn begin_row(&mut self, number: u32, name: &str) {
        self.begin(number, " raw ");
        self.text.word(name);
    }

    fn row(&mut self, number: u32, name: &str, values: &[u64]) {
        self.begin_row(number, name);
        for &value in values {
            self.text.next(value);
        }
        self.text.end();
    }

    /// Values parted by colons.
    fn group(&mut self, values: &[u64]) {
        for (place, &value) in values.iter().enumerate() {
            self.text.word(if place == 0 { " " } else { ":" });
            self.text.number(value);
        }
    }

    fn raw_queue(&mut self, number: u32) {
        self.begin_row(number, "queue");
        for at in 0..self.store.count {
            let p = usize::from(self.store.queue[at]);
            self.group(&[p as u64, self.store.nice[p].into(), self.store.slices[p].into()]);
        }
        self.text.end();
    }

    fn raw_files(&mut self, number: u32) {
        for p in 0..PROCESSES {
            for descriptor in 0..FILES {
                let Some(open) = self.store.files[p][descriptor] else {
                    continue;
                };
                self.begin_row(number, "open");
                self.text.next(p as u64);
                self.text.next(descriptor as u64);
                self.text.word(" ");
                let name = self.store.directory[usize::from(open.file)].name;
                for byte in name.into_iter().filter(|&byte| byte != 0) {
                    self.text.byte(byte);
                }
                for value in
                    [open.next, open.window, open.sequential.into(), open.start, open.count]
                {
                    self.text.next(value);
                }
                self.text.end();
            }
        }
    }

    fn raw_grafts(&mut self, number: u32) {
        for p in 0..PROCESSES {
            for point in 0..POINTS {
                if let Some(Graft { image, limit, billed, has, .. }) = self.store.grafts[p][point] {
                    let [a, b, c] = has;
                    let values = [
                        p as u64,
                        point as u64,
                        image.into(),
                        limit.into(),
                        billed.into(),
                        a,
                        b,
                        c,
                    ];
                    self.row(number, "graft", &values);
                }
            }
        }
    }

    fn raw_policies(&mut self, number: u32) {
        for kind in 0..POLICIES.len() {
            let mut policies = self.store.policies[kind];
            let head = [kind as u64, policies.chosen as u64];
            match policies.parameter() {
                None => self.row(number, "pol", &head),
                Some(value) => self.row(number, "pol", &[head[0], head[1], (*value).into()]),
            }
        }
    }

    fn raw_cache(&mut self, number: u32) {
        self.begin_row(number, "lru");
        let order: Vec<usize> = self.store.cache.oldest_first().collect();
        for at in order {
            let frame = *self.store.cache.frame(at as u32).expect("it is in use");
            let (owner, block) = (frame.owner.into(), frame.block.into());
            self.group(&[at as u64, owner, block, frame.dirty.into(), frame.mark.into()]);
        }
        self.text.end();
    }

    fn raw_calls(&mut self, number: u32) {
        let calls: [bool; PROCESSES] = std::array::from_fn(|p| self.calls[p].number != 0);
        let calls = || (0..PROCESSES).filter(|&p| calls[p]);
        for p in calls() {
            self.raw_call(number, p);
        }
        for p in calls() {
            for depth in 0..self.calls[p].depth {
                let Level { process, point, taken, .. } = self.calls[p].levels[depth];
                let values = [p as u64, depth as u64, process.into(), point.into(), taken.into()];
                self.row(number, "level", &values);
            }
        }
        for p in calls() {
            let Call { depth, changes, .. } = self.calls[p];
            let records = if depth > 0 { changes } else { 0 };
            for at in (0..records).rev() {
                self.raw_record(number, p, at);
            }
        }
    }

    fn raw_call(&mut self, number: u32, p: usize) {
        let call = &self.calls[p];
        let (waits, blocker, count, depth) = (call.waits, call.blocker, call.count, call.depth);
        let (own, levels) = (call.number, call.levels);
        self.begin_row(number, "call");
        self.text.next(p as u64);
        self.text.next(own);
        if let (true, Some(blocker)) = (waits, blocker) {
            self.text.word(" waits");
            blocker.object.write(&mut self.text);
            self.text.next(blocker.holder as u64);
            self.text.next(count);
        }
        if depth > 0 {
            let Level { process, point, .. } = levels[depth - 1];
            self.text.word(" graft");
            self.text.next(process);
            self.text.next(point);
            self.text.next(depth as u64);
        }
        self.text.end();
    }

    fn raw_record(&mut self, number: u32, p: usize, at: usize) {
        let call = &self.calls[p];
        let levels = &call.levels[..call.depth];
        let owner = levels.iter().rposition(|level| level.first_record <= at).unwrap_or(0);
        let record = call.records[at];
        self.begin_row(number, "undo");
        self.text.next(p as u64);
        self.text.next(owner as u64);
        let (name, [first, second, third]): (_, [Option<u32>; 3]) = match record {
            Change::Cell { process, cell, value } => {
                (" cell", [Some(process.into()), Some(cell.into()), Some(value)])
            }
            Change::Nice { process, value } => (" nice", [Some(process.into()), Some(value), None]),
            Change::Window { process, descriptor, value } => {
                (" window", [Some(process.into()), Some(descriptor.into()), Some(value)])
            }
            Change::Mark { frame, value } => (" mark", [Some(frame.into()), Some(value), None]),
            Change::Tune { kind, parameter, value } => {
                (" tune", [Some(kind.into()), Some(parameter.into()), Some(value)])
            }
            Change::Segment { process, point, .. } => {
                (" seg", [Some(process.into()), Some(point.into()), None])
            }
        };
        self.text.word(name);
        for value in [first, second, third].into_iter().flatten() {
            self.text.next(value);
        }
        self.text.end();
    }
}
