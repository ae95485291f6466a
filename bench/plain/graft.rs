//! Grafts that run: their levels, what they may call, and how they are dropped.

use crate::calls::Look;
use crate::disk::BLOCK;
use crate::kernel::{Blocker, Done, Kernel, LEVELS, Next, RECORDS_OF_A_CALL};
use crate::machine::{Machine, Operation, SEGMENT, Stop};
use crate::object::Mode::{self, Exclusive, Shared};
use crate::object::Object;
use crate::segments::Slot;
use crate::store::*;
use std::ops::ControlFlow::{Break, Continue};

/// The address of the first segment.
const FIRST_SEGMENT: u32 = 0x40000;

/// The place in a segment from which on bytes are fed to a graft, and are what it gives.
pub const FED: usize = 2_048;

/// The first of the ids that ask a point.
const FIRST_ASK: u32 = 13;
const TAKE_LOCK: u32 = 12;

/// A graft that runs: where it stands, its machine, how many instructions it took, and how many
/// records the call had when it began.
#[derive(Clone, Copy)]
pub struct Level {
    pub process: u8,
    pub point: u8,
    pub counter: u32,
    pub taken: u32,
    pub first_record: usize,
    /// The place of its segment, and whether that is kept.
    pub segment: u16,
    pub keeps: bool,
    pub registers: [u32; 16],
}

impl Level {
    pub fn none() -> Level {
        Level {
            process: 0,
            point: 0,
            counter: 0,
            taken: 0,
            first_record: 0,
            segment: 0,
            keeps: false,
            registers: [0; 16],
        }
    }
}

/// A change, by what puts it back. The segment that a graft kept before, if it did, stands at the
/// place of the record.
#[derive(Clone, Copy)]
pub enum Change {
    Cell { process: u8, cell: u8, value: u32 },
    Nice { process: u8, value: u32 },
    Window { process: u8, descriptor: u8, value: u32 },
    Mark { frame: u8, value: u32 },
    Tune { kind: u8, parameter: u8, value: u32 },
    Segment { process: u8, point: u8, was_kept: bool },
}

/// Why a level is dropped.
#[derive(Clone, Copy)]
pub enum Cause {
    DivideByZero,
    Trap(u32),
    NotCallable(u32),
    BadArgument(u32),
    NotYours(u32),
    NotAllowed(u32),
    TooDeep,
    Reentered,
    SpentSteps,
    SpentRecords,
    SpentLocks,
    RefusedAnswer(u32, u32),
    TimeOut(Object, usize),
}

impl Cause {
    /// The number of its code, and the numbers behind it.
    fn code(self) -> (u64, [Option<u32>; 2]) {
        match self {
            Cause::DivideByZero => (1, [None; 2]),
            Cause::Trap(code) => (2, [Some(code), None]),
            Cause::NotCallable(id) => (3, [Some(id), None]),
            Cause::BadArgument(id) => (4, [Some(id), None]),
            Cause::NotYours(id) => (5, [Some(id), None]),
            Cause::NotAllowed(id) => (6, [Some(id), None]),
            Cause::TooDeep => (7, [None; 2]),
            Cause::Reentered => (8, [None; 2]),
            Cause::SpentSteps => (9, [None; 2]),
            Cause::SpentRecords => (10, [None; 2]),
            Cause::SpentLocks => (11, [None; 2]),
            Cause::RefusedAnswer(first, second) => (12, [Some(first), Some(second)]),
            Cause::TimeOut(_, other) => (13, [Some(other as u32), None]),
        }
    }
}

/// Refuses a call of a graft of process q for its arguments alone.
fn early(q: usize, id: u32, r: &[u32; 3]) -> Result<(), Cause> {
    let fits = match id {
        0 | 1 => r[0] < CELLS as u32,
        3 => r[0] <= 39,
        4 | 13 => r[0] < FILES as u32,
        5 => r[0] < FILES as u32 && r[1] <= 8,
        9 => r[1] <= 255,
        10 | 11 if q != 0 => return Err(Cause::NotAllowed(id)),
        10 | 11 => r[0] < POLICIES.len() as u32,
        TAKE_LOCK => r[0] < USER_LOCKS as u32,
        2 | 6 | 7 | 8 | 14 | 15 => true,
        _ => return Err(Cause::NotCallable(id)),
    };
    if fits { Ok(()) } else { Err(Cause::BadArgument(id)) }
}

/// The object that a call of a graft needs, if it asks no point.
#[inline(always)]
fn object_of(q: usize, id: u32, first: u32) -> (Object, Mode) {
    let first = first as usize;
    match id {
        0 => (Object::cell(q, first), Shared),
        1 => (Object::cell(q, first), Exclusive),
        2 => (Object::QUEUE, Shared),
        3 => (Object::QUEUE, Exclusive),
        4 => (Object::file(q, first), Shared),
        5 => (Object::file(q, first), Exclusive),
        6..=8 => (Object::CACHE, Shared),
        9 => (Object::CACHE, Exclusive),
        10 => (Object::policy(first), Shared),
        11 => (Object::policy(first), Exclusive),
        _ => (Object::lock(first), Exclusive),
    }
}

/// The point that an ask asks.
fn point_of(id: u32, first: u32) -> usize {
    match id {
        13 => first as usize,
        14 => VICTIM,
        _ => NEXT,
    }
}

/// What the asking level of a point holds.
fn looked_at(q: usize, point: usize) -> [Object; 2] {
    match point {
        VICTIM => [Object::CACHE, Object::policy(EVICTION)],
        NEXT => [Object::QUEUE, Object::policy(SCHEDULING)],
        _ => [Object::file(q, point), Object::policy(AHEAD)],
    }
}

impl Kernel {
    // ---- levels

    /// A piece asks a graft: the call's outermost level begins, and holds what the piece needs.
    pub fn ask(&mut self, process: usize, q: usize, point: usize, args: [u32; 4]) -> Done {
        let mut needs = [(Object::QUEUE, Shared); 8];
        let mut count = 0;
        let _: Look<()> = self.needs(process, &mut |object, mode| {
            needs[count] = (object, mode);
            count += 1;
            Continue(())
        });
        for (object, mode) in &needs[..count] {
            self.holdings.touch(process, 0, *object, *mode);
        }
        self.calls[process].changes = 0;
        self.in_graft |= 1 << process;
        self.begin_level(process, q, point, args);
        Ok(Next::Graft)
    }

    fn begin_level(&mut self, process: usize, q: usize, point: usize, args: [u32; 4]) {
        let depth = self.calls[process].depth;
        let graft = self.store.grafts[q][point].as_ref().expect("a graft stands there");
        let image = self.images[usize::from(graft.image)].as_ref().expect("its image is loaded");
        let keeps = image.keeps;
        if image.has_access || point >= FIRST_PORT {
            self.begin_segment(process, depth, q, point);
        }
        let call = &mut self.calls[process];
        let level = &mut call.levels[depth];
        *level = Level { process: q as u8, point: point as u8, keeps, ..Level::none() };
        level.first_record = call.changes;
        level.segment = self.segments.place(Slot::of_level(process, depth));
        level.registers[..4].copy_from_slice(&args);
        level.registers[15] = FIRST_SEGMENT + (SEGMENT * (LEVELS * process + depth)) as u32;
        call.depth += 1;
    }

    /// The segment of a level that begins: what its graft keeps, or the data of its image, and what
    /// it is fed. Code without an access sees no more than that.
    #[inline(never)]
    fn begin_segment(&mut self, process: usize, depth: usize, q: usize, point: usize) {
        let own = Slot::of_level(process, depth);
        let graft = self.store.grafts[q][point].as_ref().expect("a graft stands there");
        let image = self.images[usize::from(graft.image)].as_ref().expect("its image is loaded");
        let seen = if image.has_access { 0..SEGMENT } else { FED..FED + BLOCK };
        match (graft.has_kept, depth) {
            // A drop of the outermost level takes its graft out, and what is kept for it.
            (true, 0) => self.segments.swap(own, Slot::kept(q, point)),
            (true, _) => self.segments.copy(own, Slot::kept(q, point)),
            (false, _) => self.segments.fill(own, &image.data, seen),
        }
        if point >= FIRST_PORT {
            let call = &self.calls[process];
            let fed = &call.bytes[..call.length];
            let place = self.segments.place(own);
            self.segments.at_mut(place)[FED..FED + fed.len()].copy_from_slice(fed);
        }
    }

    /// Takes up to so many instructions of a call's innermost level, at least one. Says how many
    /// were taken up, and whether the next one is blocked. It ends early where the level does, and
    /// behind each call of the kernel.
    pub fn run_level(&mut self, process: usize, most: u32) -> (u32, bool) {
        let call = &mut self.calls[process];
        let depth = call.depth - 1;
        let level = &mut call.levels[depth];
        let (q, point) = (usize::from(level.process), usize::from(level.point));
        let graft = self.store.grafts[q][point].as_ref().expect("it stands");
        let (image, limit) = (usize::from(graft.image), graft.limit);
        let image = self.images[image].as_ref().expect("its image is loaded");
        let funds = self.store.funds(q, point);
        let budget = u64::from(most.min(limit - level.taken)).min(funds) as u32;
        let segment = self.segments.at_mut(level.segment);
        let machine = Machine {
            code: &image.code,
            registers: &mut level.registers,
            counter: &mut level.counter,
            segment,
        };
        let store = &self.store;
        let holdings = &self.holdings;
        let holds = |object| holdings.has(process, depth, object);
        let look = |id: u32, r: &mut [u32; 16]| store.look_again(q, id, r, holds);
        let (taken, stop) = machine.run(budget, look);
        match stop {
            Stop::Budget => {
                self.pay_steps(process, taken);
                if taken == most {
                    return (taken, false);
                }
                self.drop_level(process, depth, Cause::SpentSteps);
            }
            Stop::Call(id) => return self.take_call(process, taken, id),
            Stop::Return => {
                self.pay_steps(process, taken + 1);
                self.answer(process);
            }
            Stop::Trap(code) => self.fail(process, taken + 1, Cause::Trap(code)),
            Stop::DivideByZero => self.fail(process, taken + 1, Cause::DivideByZero),
        }
        (taken + 1, false)
    }

    /// Some steps are paid for the innermost level, which has so many left.
    #[inline]
    fn pay_steps(&mut self, process: usize, count: u32) {
        let call = &mut self.calls[process];
        let level = &mut call.levels[call.depth - 1];
        level.taken += count;
        let (has, spent) = self.store.payer(usize::from(level.process), usize::from(level.point));
        has[STEPS] -= u64::from(count);
        spent[STEPS] += u64::from(count);
    }

    /// The innermost level ends behind so many instructions, and is dropped.
    fn fail(&mut self, process: usize, taken: u32, cause: Cause) {
        self.pay_steps(process, taken);
        self.drop_level(process, self.calls[process].depth - 1, cause);
    }

    /// The innermost level returns.
    fn answer(&mut self, process: usize) {
        let call = &mut self.calls[process];
        let depth = call.depth - 1;
        let level = &call.levels[depth];
        let (q, point) = (usize::from(level.process), usize::from(level.point));
        let answer = [level.registers[0], level.registers[1]];
        let accepted = match point {
            IN | OUT => answer[0] as usize == call.length,
            FIRST_PORT.. => answer[0] as usize <= BLOCK,
            _ => self.store.accepts(q, point, answer),
        };
        if !accepted {
            let cause = Cause::RefusedAnswer(answer[0], answer[1]);
            return self.drop_level(process, depth, cause);
        }
        if level.keeps && !self.keep(process, depth, q, point) {
            return self.drop_level(process, depth, Cause::SpentRecords);
        }
        let call = &mut self.calls[process];
        call.depth = depth;
        if depth > 0 {
            self.holdings.merge(process, depth);
            return self.tell_asker(process, point, answer);
        }
        self.holdings.release(process, 0);
        self.in_graft &= !(1 << process);
        self.finish(process, Some(answer));
    }

    /// Keeps the segment of the innermost level, which has answered. Says whether there was a record
    /// for that.
    #[inline(never)]
    fn keep(&mut self, process: usize, depth: usize, q: usize, point: usize) -> bool {
        let graft = self.store.grafts[q][point].as_mut().expect("it stands");
        let was_kept = std::mem::replace(&mut graft.has_kept, true);
        let call = &mut self.calls[process];
        let record = call.changes;
        if record == RECORDS_OF_A_CALL || !self.store.pay(q, point, RECORDS) {
            return false;
        }
        let kept = Slot::kept(q, point);
        if depth > 0 {
            let (q, point) = (q as u8, point as u8);
            call.records[record] = Change::Segment { process: q, point, was_kept };
            call.changes += 1;
            self.segments.swap(kept, Slot::before(process, record));
        }
        self.segments.swap(kept, Slot::of_level(process, depth));
        true
    }

    /// The innermost level is told the answer of the point that it asked.
    fn tell_asker(&mut self, process: usize, point: usize, answer: [u32; 2]) {
        let call = &mut self.calls[process];
        let registers = &mut call.levels[call.depth - 1].registers;
        registers[0] = answer[0];
        if point < VICTIM {
            registers[1] = answer[1];
        }
    }

    /// A level is dropped, with those inside it: their changes are put back, and its graft is taken
    /// out.
    pub fn drop_level(&mut self, process: usize, depth: usize, cause: Cause) {
        let call = &mut self.calls[process];
        let level = &call.levels[depth];
        let (q, point) = (usize::from(level.process), usize::from(level.point));
        for at in (level.first_record..call.changes).rev() {
            self.store.put_back(&call.records[at]);
            if let Change::Segment { process: q, point, .. } = call.records[at] {
                let kept = Slot::kept(usize::from(q), usize::from(point));
                self.segments.swap(kept, Slot::before(process, at));
            }
        }
        call.changes = level.first_record;
        call.depth = depth;
        let number = call.number;
        self.holdings.release(process, depth);
        self.store.remove(q, point);
        self.write_drop(number, q, point, cause);
        if depth > 0 {
            let default = self.store.answer_of_point(q, point);
            return self.tell_asker(process, point, default);
        }
        self.in_graft &= !(1 << process);
        self.finish(process, None);
    }

    fn write_drop(&mut self, number: u32, q: usize, point: usize, cause: Cause) {
        self.text.dropped += 1;
        self.begin(number, " drop");
        self.text.next(q as u64);
        self.text.next(point as u64);
        let (code, numbers) = cause.code();
        self.text.word(" C");
        self.text.number(code);
        if let Cause::TimeOut(object, _) = cause {
            object.write(&mut self.text);
        }
        for number in numbers.into_iter().flatten() {
            self.text.next(number);
        }
        self.text.end();
    }

    // ---- calls of the kernel

    /// What is in the way of the next instruction of a call's innermost level, which is a call that
    /// isn't refused for its arguments alone.
    pub fn blocker_in_graft(&self, process: usize) -> Option<Blocker> {
        let call = &self.calls[process];
        let level = &call.levels[call.depth - 1];
        let q = usize::from(level.process);
        let graft = self.store.grafts[q][usize::from(level.point)].as_ref()?;
        let code = &self.images[usize::from(graft.image)].as_ref()?.code;
        let i = code[level.counter as usize];
        let id = match i.operation {
            Operation::Callr => level.registers[usize::from(i.a)],
            _ => i.number,
        };
        self.in_the_way_of_call(process, q, id, level.registers[0])
    }

    /// What is in the way of a call of a graft.
    #[inline]
    fn in_the_way_of_call(&self, p: usize, q: usize, id: u32, first: u32) -> Option<Blocker> {
        if id >= FIRST_ASK {
            let point = point_of(id, first);
            let [one, other] = looked_at(q, point);
            let graft = (Object::graft(q, point), Exclusive);
            let mut needs = [(one, Shared), (other, Shared), graft].into_iter();
            let look = needs.try_for_each(|(object, mode)| self.in_the_way(p, object, mode));
            return look.break_value();
        }
        let (object, mode) = object_of(q, id, first);
        if let Break(blocker) = self.in_the_way(p, object, mode) {
            return Some(blocker);
        }
        if id == TAKE_LOCK { self.owner_in_the_way(q, first as usize) } else { None }
    }

    /// The innermost level calls the kernel behind so many instructions. Says how many were taken
    /// up, and whether the call is blocked, and then nothing of it is done.
    fn take_call(&mut self, process: usize, taken: u32, id: u32) -> (u32, bool) {
        let call = &self.calls[process];
        let depth = call.depth - 1;
        let level = &call.levels[depth];
        let q = usize::from(level.process);
        let [first, second, third, ..] = level.registers;
        let args = [first, second, third];
        let refused = early(q, id, &args).err();
        if refused.is_none() && self.in_the_way_of_call(process, q, id, first).is_some() {
            self.pay_steps(process, taken);
            return (taken, true);
        }
        self.pay_steps(process, taken + 1);
        self.calls[process].levels[depth].counter += 1;
        let done = match refused {
            Some(cause) => Err(cause),
            None if id >= FIRST_ASK => self.ask_inside(process, q, id, point_of(id, first)),
            None => self.access(process, q, id, &args),
        };
        if let Err(cause) = done {
            self.drop_level(process, depth, cause);
        }
        (taken + 1, false)
    }

    /// The innermost level asks another point of its process.
    fn ask_inside(&mut self, process: usize, q: usize, id: u32, point: usize) -> Result<(), Cause> {
        let is_there = match point {
            VICTIM => self.store.cache.owned(q) > 0,
            NEXT => true,
            _ => self.store.files[q][point].is_some(),
        };
        if !is_there {
            return Err(Cause::BadArgument(id));
        }
        let call = &self.calls[process];
        let depth = call.depth;
        let stands = self.store.grafts[q][point].is_some();
        let runs =
            |level: &Level| (usize::from(level.process), usize::from(level.point)) == (q, point);
        if stands && call.levels[..depth].iter().any(runs) {
            return Err(Cause::Reentered);
        }
        if stands && depth == LEVELS {
            return Err(Cause::TooDeep);
        }
        for object in looked_at(q, point) {
            self.holdings.touch(process, depth - 1, object, Shared);
        }
        self.holdings.touch(process, 0, Object::graft(q, point), Exclusive);
        if stands {
            let args = self.store.args_of_point(q, point);
            self.begin_level(process, q, point, args);
        } else {
            let default = self.store.answer_of_point(q, point);
            self.tell_asker(process, point, default);
        }
        Ok(())
    }

    /// A call of the innermost level that asks no point.
    fn access(&mut self, process: usize, q: usize, id: u32, r: &[u32; 3]) -> Result<(), Cause> {
        let result = match id {
            0 => self.store.cells[q][r[0] as usize],
            2 => self.store.nice[q],
            6 => self.store.cache.owned(q),
            TAKE_LOCK => self.take_lock(process, q, r[0])?,
            1 | 3 | 5 | 9 | 11 => self.change(process, q, id, r)?,
            _ => self.store.look(q, id, r)?,
        };
        let (object, mode) = object_of(q, id, r[0]);
        let call = &mut self.calls[process];
        let depth = call.depth - 1;
        call.levels[depth].registers[0] = result;
        self.holdings.touch(process, depth, object, mode);
        Ok(())
    }

    fn take_lock(&mut self, process: usize, q: usize, lock: u32) -> Result<u32, Cause> {
        if !self.holdings.holds(process, Object::lock(lock as usize)) {
            let call = &self.calls[process];
            let point = usize::from(call.levels[call.depth - 1].point);
            if !self.store.pay(q, point, LOCKS) {
                return Err(Cause::SpentLocks);
            }
        }
        Ok(lock)
    }

    /// A call that changes something. Gives the value from before.
    fn change(&mut self, process: usize, q: usize, id: u32, r: &[u32; 3]) -> Result<u32, Cause> {
        let (mut change, old) = self.store.change_of(q, id, r)?;
        let call = &mut self.calls[process];
        let point = usize::from(call.levels[call.depth - 1].point);
        if call.changes == RECORDS_OF_A_CALL || !self.store.pay(q, point, RECORDS) {
            return Err(Cause::SpentRecords);
        }
        call.records[call.changes] = change;
        call.changes += 1;
        let new = match id {
            3 => r[0],
            11 => r[2],
            _ => r[1],
        };
        if let Some(value) = change.value() {
            *value = new;
            self.store.put_back(&change);
        }
        Ok(old)
    }
}

impl Change {
    fn value(&mut self) -> Option<&mut u32> {
        match self {
            Change::Cell { value, .. }
            | Change::Nice { value, .. }
            | Change::Window { value, .. }
            | Change::Mark { value, .. }
            | Change::Tune { value, .. } => Some(value),
            Change::Segment { .. } => None,
        }
    }
}

impl Store {
    /// Whether a point accepts an answer.
    fn accepts(&self, q: usize, point: usize, [first, second]: [u32; 2]) -> bool {
        match point {
            VICTIM => self.cache.frame(first).is_some_and(|frame| usize::from(frame.owner) == q),
            NEXT => self.lives(first),
            _ => {
                let blocks = self.files[q][point].map_or(0, |file| self.blocks(&file));
                second <= MOST_AHEAD && u64::from(first) + u64::from(second) <= u64::from(blocks)
            }
        }
    }

    fn blocks(&self, file: &Open) -> u32 {
        self.directory[usize::from(file.file)].blocks
    }

    /// What a point answers by default where a graft asks it.
    fn answer_of_point(&self, q: usize, point: usize) -> [u32; 2] {
        let [first, second, ..] = self.args_of_point(q, point);
        [first, second]
    }

    /// What a graft at a point is asked where another one asks it.
    fn args_of_point(&self, q: usize, point: usize) -> [u32; 4] {
        match (point, self.files[q].get(point)) {
            (VICTIM, _) => [self.victim(Some(q)).unwrap_or(0) as u32, 0, self.cache.owned(q), 0],
            (_, Some(Some(file))) => {
                let (start, count) = self.ahead(file);
                [start, count, self.blocks(file), point as u32]
            }
            _ => [q as u32, self.nice[q], self.count as u32, 0],
        }
    }

    /// A call of a graft that only looks at what its level holds already, so that nothing is in its
    /// way. Says whether it was one, and else does nothing.
    #[inline(always)]
    fn look_again(
        &self,
        q: usize,
        id: u32,
        r: &mut [u32; 16],
        holds: impl Fn(Object) -> bool,
    ) -> bool {
        let first = r[0] as usize;
        let value = match id {
            0 if first < CELLS && holds(Object::cell(q, first)) => self.cells[q][first],
            2 if holds(Object::QUEUE) => self.nice[q],
            6 if holds(Object::CACHE) => self.cache.owned(q),
            _ => return false,
        };
        r[0] = value;
        true
    }

    /// The values that a graft of process q may look at.
    fn look(&mut self, q: usize, id: u32, r: &[u32; 3]) -> Result<u32, Cause> {
        let first = r[0] as usize;
        let bad = Cause::BadArgument(id);
        match id {
            4 => self.files[q][first].map(|file| file.window).ok_or(bad),
            7 => {
                let mine = |at: &usize| {
                    usize::from(self.cache.frame(*at as u32).map_or(0, |f| f.owner)) == q
                };
                if r[0] >= self.cache.owned(q) {
                    return Err(bad);
                }
                self.cache.oldest_first().filter(mine).nth(first).map(|at| at as u32).ok_or(bad)
            }
            8 => {
                let frame = self.cache.frame(r[0]).ok_or(bad)?;
                if usize::from(frame.owner) == q {
                    Ok(frame.block)
                } else {
                    Err(Cause::NotYours(id))
                }
            }
            _ => match self.policies[first].parameter() {
                Some(value) if r[1] == 0 => Ok(*value),
                _ => Err(bad),
            },
        }
    }

    /// What puts back what a call of a graft changes, and the value from before.
    fn change_of(&mut self, q: usize, id: u32, r: &[u32; 3]) -> Result<(Change, u32), Cause> {
        let first = r[0] as usize;
        let bad = Cause::BadArgument(id);
        let process = q as u8;
        Ok(match id {
            1 => {
                let value = self.cells[q][first];
                (Change::Cell { process, cell: first as u8, value }, value)
            }
            3 => (Change::Nice { process, value: self.nice[q] }, self.nice[q]),
            5 => {
                let value = self.files[q][first].ok_or(bad)?.window;
                (Change::Window { process, descriptor: first as u8, value }, value)
            }
            9 => {
                let frame = self.cache.frame(r[0]).ok_or(bad)?;
                if usize::from(frame.owner) != q {
                    return Err(Cause::NotYours(id));
                }
                (Change::Mark { frame: first as u8, value: frame.mark }, frame.mark)
            }
            _ => {
                let value = match self.policies[first].parameter() {
                    Some(value) if r[1] == 0 && r[2] <= POLICIES[first].1 => *value,
                    _ => return Err(bad),
                };
                (Change::Tune { kind: first as u8, parameter: 0, value }, value)
            }
        })
    }

    /// Puts a value in place.
    fn put_back(&mut self, change: &Change) {
        match *change {
            Change::Cell { process, cell, value } => {
                self.cells[usize::from(process)][usize::from(cell)] = value;
            }
            Change::Nice { process, value } => self.nice[usize::from(process)] = value,
            Change::Window { process, descriptor, value } => {
                if let Some(file) = &mut self.files[usize::from(process)][usize::from(descriptor)] {
                    file.window = value;
                }
            }
            Change::Mark { frame, value } => {
                self.cache.mark(usize::from(frame), value);
            }
            Change::Tune { kind, value, .. } => {
                if let Some(parameter) = self.policies[usize::from(kind)].parameter() {
                    *parameter = value;
                }
            }
            Change::Segment { process, point, was_kept } => {
                if let Some(graft) = &mut self.grafts[usize::from(process)][usize::from(point)] {
                    graft.has_kept = was_kept;
                }
            }
        }
    }
}
