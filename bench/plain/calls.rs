//! The system calls: what is refused at once, what each piece needs, and what it does.

use crate::disk::BLOCK;
use crate::kernel::{Blocker, Done, IMAGES, Kernel, Next, Refusal};
use crate::object::Mode::{self, Exclusive, Shared};
use crate::object::Object;
use crate::ports::PORTS;
use crate::script::Request;
use crate::store::*;
use std::ops::ControlFlow::{self, Break, Continue};

/// What a look at the objects that a piece needs ends with: something that stops it, or nothing.
pub type Look<B> = ControlFlow<B>;

fn check(holds: bool, refusal: Refusal) -> Result<(), Refusal> {
    if holds { Ok(()) } else { Err(refusal) }
}

impl Kernel {
    // ---- what is refused at once

    /// Refuses a call for what its words, the directory and the loaded images show.
    #[inline]
    pub fn early(&self, process: usize, request: &Request, bytes: usize) -> Result<(), Refusal> {
        let in_block = |offset: u32, length: u32| {
            check(u64::from(offset) + u64::from(length) <= BLOCK as u64, Refusal::OutOfRange)
        };
        let open = |descriptor: u32| check(descriptor < FILES as u32, Refusal::NotOpen);
        let point = |point: u32| check(point < POINTS as u32, Refusal::NoSuchPoint);
        match *request {
            Request::Spawn | Request::Yield | Request::Sync => Ok(()),
            Request::Exit => check(process != 0, Refusal::NotAllowed),
            Request::Open { name } => check(
                self.store.directory.iter().any(|file| file.name == name),
                Refusal::NoSuchFile,
            ),
            Request::Close { descriptor } => open(descriptor),
            Request::Read { descriptor, offset, length, .. }
            | Request::StreamRead { descriptor, offset, length, .. } => {
                open(descriptor).and_then(|()| in_block(offset, length))
            }
            Request::Write { descriptor, offset, .. }
            | Request::StreamWrite { descriptor, offset, .. } => {
                open(descriptor).and_then(|()| in_block(offset, bytes as u32))
            }
            Request::Lock { lock } | Request::Unlock { lock } => {
                check(lock < USER_LOCKS as u32, Refusal::OutOfRange)
            }
            Request::Poke { cell, .. } | Request::Peek { cell } => {
                check(cell < CELLS as u32, Refusal::OutOfRange)
            }
            Request::Tune { kind, .. } => Kernel::early_policy(process, kind, 0),
            Request::Choose { kind, policy } => Kernel::early_policy(process, kind, policy),
            Request::Give { to, .. } => check(to < PROCESSES as u32, Refusal::NoProcess),
            Request::Install { point: at, image, limit } => {
                point(at).and_then(|()| self.early_install(image, limit))
            }
            Request::Remove { point: at } | Request::Bill { point: at } => point(at),
            Request::Fund { point: at, .. } => point(at),
            Request::Serve { port } => check(port < PORTS as u32, Refusal::OutOfRange),
        }
    }

    fn early_policy(process: usize, kind: u32, policy: u32) -> Result<(), Refusal> {
        check(process == 0, Refusal::NotAllowed)?;
        let policies = POLICIES.get(kind as usize).ok_or(Refusal::NoSuchPoint)?;
        check(policy < policies.0, Refusal::NoSuchPoint)
    }

    fn early_install(&self, image: u32, limit: u32) -> Result<(), Refusal> {
        check((1..=65_536).contains(&limit), Refusal::OutOfRange)?;
        let loaded = image < IMAGES as u32 && self.images[image as usize].is_some();
        check(loaded, Refusal::NoSuchImage)
    }

    // ---- what is needed

    /// What is in the way of a call's next step.
    #[inline]
    pub fn blocker(&self, process: usize) -> Option<Blocker> {
        if self.calls[process].depth > 0 {
            return self.blocker_in_graft(process);
        }
        if self.in_graft != 0
            && let Break(blocker) = self.look_at_needs(process)
        {
            return Some(blocker);
        }
        match self.calls[process].request {
            Request::Lock { lock } => self.owner_in_the_way(process, lock as usize),
            _ => None,
        }
    }

    /// The call that is in the way at an object of a call's next piece. It stands apart, since less
    /// is done where no graft runs.
    #[inline(never)]
    fn look_at_needs(&self, process: usize) -> Look<Blocker> {
        self.needs(process, &mut |object, mode| self.in_the_way(process, object, mode))
    }

    /// The call that is in the way at an object.
    pub fn in_the_way(&self, process: usize, object: Object, mode: Mode) -> Look<Blocker> {
        match self.holdings.in_the_way(process, object, mode) {
            None => Continue(()),
            Some(holder) => {
                Break(Blocker { object, mode, holder, call: self.calls[holder].number })
            }
        }
    }

    /// The process whose user lock is in the way of another one.
    pub fn owner_in_the_way(&self, process: usize, lock: usize) -> Option<Blocker> {
        let holder = usize::from(self.store.locks[lock]?);
        (holder != process).then_some(Blocker {
            object: Object::lock(lock),
            mode: Exclusive,
            holder,
            call: 0,
        })
    }

    /// Looks at the objects that a call's next piece needs, in order, the last one that shows a
    /// refusal.
    pub fn needs<B, F>(&self, process: usize, look: &mut F) -> Look<B>
    where
        F: FnMut(Object, Mode) -> Look<B>,
    {
        let call = &self.calls[process];
        let p = process;
        match call.request {
            Request::Spawn => {
                look(Object::QUEUE, Exclusive)?;
                let free = (!self.store.living).trailing_zeros() as usize;
                if free < PROCESSES { look(Object::account(free), Exclusive) } else { Continue(()) }
            }
            Request::Exit => needs_of_exit(p, look),
            Request::Yield => {
                look(Object::QUEUE, Exclusive)?;
                if call.stage == 0 {
                    return Continue(());
                }
                look(Object::policy(SCHEDULING), Shared)?;
                self.needs_of_point(self.store.next(), NEXT, look)
            }
            Request::Sync => look(Object::CACHE, Exclusive),
            Request::Open { .. } => {
                (0..FILES).try_for_each(|descriptor| look(Object::file(p, descriptor), Exclusive))
            }
            Request::Close { descriptor } => look(Object::file(p, descriptor as usize), Exclusive),
            Request::Read { .. } | Request::Write { .. } => self.needs_of_file(p, look),
            Request::Serve { .. } => self.needs_of_event(p, look),
            Request::StreamRead { .. } | Request::StreamWrite { .. } => {
                self.needs_of_stream(p, look)
            }
            Request::Lock { lock } | Request::Unlock { lock } => {
                look(Object::lock(lock as usize), Exclusive)
            }
            Request::Poke { cell, .. } => look(Object::cell(p, cell as usize), Exclusive),
            Request::Peek { cell } => look(Object::cell(p, cell as usize), Shared),
            Request::Tune { kind, .. } | Request::Choose { kind, .. } => {
                look(Object::policy(kind as usize), Exclusive)
            }
            _ => self.needs_of_amounts(p, look),
        }
    }

    /// The calls about amounts and grafts.
    fn needs_of_amounts<B, F>(&self, process: usize, look: &mut F) -> Look<B>
    where
        F: FnMut(Object, Mode) -> Look<B>,
    {
        match self.calls[process].request {
            Request::Give { to, amount, count } => {
                look(Object::QUEUE, Shared)?;
                if !self.store.lives(to) {
                    return Continue(());
                }
                look(Object::account(process), Exclusive)?;
                if self.store.accounts[process].has[usize::from(amount)] < u64::from(count) {
                    return Continue(());
                }
                look(Object::account(to as usize), Exclusive)
            }
            Request::Bill { point } => look(Object::graft(process, point as usize), Exclusive),
            Request::Install { point, .. } => {
                look(Object::graft(process, point as usize), Exclusive)?;
                self.needs_of_handlers(process, point as usize, false, look)
            }
            Request::Remove { point } => {
                self.needs_of_point(process, point as usize, look)?;
                self.needs_of_handlers(process, point as usize, true, look)
            }
            Request::Fund { point, .. } => self.needs_of_point(process, point as usize, look),
            _ => Continue(()),
        }
    }

    /// The queue, where a graft comes to or goes from a point of a port that is so.
    fn needs_of_handlers<B, F>(
        &self,
        process: usize,
        point: usize,
        is_taken: bool,
        look: &mut F,
    ) -> Look<B>
    where
        F: FnMut(Object, Mode) -> Look<B>,
    {
        let changes = self.store.grafts[process][point].is_some() == is_taken;
        if changes && port_of(point).is_some() {
            return look(Object::QUEUE, Exclusive);
        }
        Continue(())
    }

    /// A point, and where a graft stands there, what may pay for it.
    pub fn needs_of_point<B, F>(&self, process: usize, point: usize, look: &mut F) -> Look<B>
    where
        F: FnMut(Object, Mode) -> Look<B>,
    {
        look(Object::graft(process, point), Exclusive)?;
        match self.store.grafts[process][point] {
            None => Continue(()),
            Some(_) => look(Object::account(process), Exclusive),
        }
    }

    /// The pieces of `read` and `write`, and those of streams that fetch a block.
    pub fn needs_of_file<B, F>(&self, process: usize, look: &mut F) -> Look<B>
    where
        F: FnMut(Object, Mode) -> Look<B>,
    {
        let call = &self.calls[process];
        let (descriptor, mode) = match call.request {
            Request::Read { descriptor, .. } => (descriptor as usize, Exclusive),
            Request::Write { descriptor, .. }
            | Request::StreamRead { descriptor, .. }
            | Request::StreamWrite { descriptor, .. } => (descriptor as usize, Shared),
            _ => return Continue(()),
        };
        look(Object::file(process, descriptor), mode)?;
        if call.stage == 1 && mode == Exclusive {
            look(Object::policy(AHEAD), Shared)?;
            return self.needs_of_point(process, descriptor, look);
        }
        let Ok(block) = self.wanted(process) else {
            return Continue(());
        };
        look(Object::CACHE, Exclusive)?;
        if self.store.cache.find(block).is_some() || self.store.cache.free().is_some() {
            return Continue(());
        }
        look(Object::policy(EVICTION), Shared)?;
        self.needs_of_point(self.candidate().1, VICTIM, look)
    }

    // ---- pieces

    /// The next piece of a call that isn't blocked, up to the graft that it asks, if there is one.
    #[inline]
    pub fn piece(&mut self, process: usize) -> Done {
        let store = &mut self.store;
        match self.calls[process].request {
            Request::Spawn => self.spawn(),
            Request::Exit => {
                store.leave(process);
                Ok(Next::End(None))
            }
            Request::Yield => self.yield_turn(process),
            Request::Sync => Ok(Next::End(Some(u64::from(store.cache.sync())))),
            Request::Open { name } => self.open(process, name),
            Request::Close { descriptor } => {
                let file = store.files[process][descriptor as usize].take();
                file.map(|_| Next::End(None)).ok_or(Refusal::NotOpen)
            }
            Request::Read { descriptor, .. } => self.read(process, descriptor as usize),
            Request::Write { .. } => self.fetch(process),
            Request::Serve { port } => self.serve(process, port),
            Request::StreamRead { descriptor, block, offset, .. } => {
                self.stream_read(process, [block, offset, descriptor])
            }
            Request::StreamWrite { descriptor, block, offset } => {
                self.stream_write(process, [block, offset, descriptor])
            }
            Request::Lock { lock } => self.lock(process, lock as usize),
            Request::Unlock { lock } => self.unlock(process, lock as usize),
            Request::Poke { cell, value } => {
                store.cells[process][cell as usize] = value;
                Ok(Next::End(None))
            }
            Request::Peek { cell } => {
                Ok(Next::End(Some(u64::from(store.cells[process][cell as usize]))))
            }
            Request::Tune { kind, parameter, value } => self.tune(kind as usize, parameter, value),
            Request::Choose { kind, policy } => {
                store.policies[kind as usize].chosen = policy as usize;
                Ok(Next::End(None))
            }
            _ => self.piece_about_amounts(process),
        }
    }

    /// The calls about amounts and grafts.
    fn piece_about_amounts(&mut self, process: usize) -> Done {
        let store = &mut self.store;
        let grafts = &mut store.grafts[process];
        match self.calls[process].request {
            Request::Give { to, amount, count } => {
                check(store.living >> to & 1 == 1, Refusal::NoProcess)?;
                take(&mut store.accounts[process].has[usize::from(amount)], count)?;
                store.accounts[to as usize].has[usize::from(amount)] += u64::from(count);
            }
            Request::Install { point, image, limit } => {
                let place = &mut grafts[point as usize];
                check(place.is_none(), Refusal::Taken)?;
                if let Some(port) = port_of(point as usize) {
                    check(store.handlers[port].add(process), Refusal::PortFull)?;
                }
                let (image, billed, has_kept) = (image as u8, false, false);
                *place = Some(Graft { image, limit, billed, has_kept, has: [0; 3] });
                store.standing[process] |= 1 << point;
            }
            Request::Remove { point } => {
                check(grafts[point as usize].is_some(), Refusal::NoGraft)?;
                store.remove(process, point as usize);
                if let Some(port) = port_of(point as usize) {
                    store.handlers[port].forget(process);
                }
            }
            Request::Fund { point, amount, count } => {
                let graft = grafts[point as usize].as_mut().ok_or(Refusal::NoGraft)?;
                let amount = usize::from(amount);
                take(&mut store.accounts[process].has[amount], count)?;
                graft.has[amount] += u64::from(count);
            }
            Request::Bill { point } => {
                grafts[point as usize].as_mut().ok_or(Refusal::NoGraft)?.billed = true;
            }
            _ => {}
        }
        Ok(Next::End(None))
    }

    fn spawn(&mut self) -> Done {
        let free = (!self.store.living).trailing_zeros() as usize;
        check(free < PROCESSES, Refusal::TooManyProcesses)?;
        self.store.join(free);
        Ok(Next::End(Some(free as u64)))
    }

    fn yield_turn(&mut self, process: usize) -> Done {
        if self.calls[process].stage == 0 {
            self.store.to_back(process);
            self.calls[process].stage = 1;
            return Ok(Next::Piece);
        }
        let next = self.store.next();
        if self.store.grafts[next][NEXT].is_some() {
            let args = [next as u32, self.store.nice[next], self.store.count as u32, 0];
            return self.ask(process, next, NEXT, args);
        }
        self.finish_yield(next)
    }

    fn finish_yield(&mut self, next: usize) -> Done {
        self.store.slices[next] += 1;
        Ok(Next::End(Some(next as u64)))
    }

    fn open(&mut self, process: usize, name: [u8; 16]) -> Done {
        let files = &mut self.store.files[process];
        let free = files.iter().position(Option::is_none).ok_or(Refusal::TooManyFiles)?;
        let file = self.store.directory.iter().position(|file| file.name == name);
        let file = file.ok_or(Refusal::NoSuchFile)? as u8;
        files[free] =
            Some(Open { file, next: 0, sequential: false, window: 8, start: 0, count: 0 });
        Ok(Next::End(Some(free as u64)))
    }

    fn lock(&mut self, process: usize, lock: usize) -> Done {
        check(self.store.locks[lock].is_none(), Refusal::HoldsLock)?;
        self.store.locks[lock] = Some(process as u8);
        Ok(Next::End(None))
    }

    fn unlock(&mut self, process: usize, lock: usize) -> Done {
        check(self.store.locks[lock] == Some(process as u8), Refusal::HoldsNoLock)?;
        self.store.locks[lock] = None;
        Ok(Next::End(None))
    }

    fn tune(&mut self, kind: usize, number: u32, value: u32) -> Done {
        let parameter = self.store.policies[kind].parameter().ok_or(Refusal::OutOfRange)?;
        check(number == 0 && value <= POLICIES[kind].1, Refusal::OutOfRange)?;
        *parameter = value;
        Ok(Next::End(None))
    }

    fn read(&mut self, process: usize, descriptor: usize) -> Done {
        if self.calls[process].stage != 1 {
            return self.fetch(process);
        }
        let file = self.file(process, descriptor)?;
        let (start, count) = self.store.ahead(&file);
        if self.store.grafts[process][descriptor].is_some() {
            let blocks = self.store.directory[usize::from(file.file)].blocks;
            return self.ask(
                process,
                process,
                descriptor,
                [start, count, blocks, descriptor as u32],
            );
        }
        self.finish_ahead(process, descriptor, start, count)
    }

    fn finish_ahead(&mut self, process: usize, descriptor: usize, start: u32, count: u32) -> Done {
        let file = self.store.files[process][descriptor].as_mut().ok_or(Refusal::NotOpen)?;
        (file.start, file.count) = (start, count);
        self.calls[process].stage = 2;
        Ok(if count == 0 { Next::End(None) } else { Next::Piece })
    }

    fn file(&self, process: usize, descriptor: usize) -> Result<Open, Refusal> {
        self.store.files[process][descriptor].ok_or(Refusal::NotOpen)
    }

    // ---- fetching

    /// The disk's block that a piece of a call fetches, which is about a file.
    #[inline]
    pub fn wanted(&self, process: usize) -> Result<u32, Refusal> {
        let call = &self.calls[process];
        let (descriptor, block, end) = match call.request {
            Request::Read { descriptor, block, offset, length }
            | Request::StreamRead { descriptor, block, offset, length } => {
                (descriptor, block, offset + length)
            }
            Request::Write { descriptor, block, offset }
            | Request::StreamWrite { descriptor, block, offset } => {
                (descriptor, block, offset + call.length as u32)
            }
            _ => return Err(Refusal::OutOfRange),
        };
        let open = self.file(process, descriptor as usize)?;
        let file = &self.store.directory[usize::from(open.file)];
        if call.stage == 2 {
            return Ok(file.start + open.start);
        }
        let inside = block < file.blocks && BLOCK as u32 * block + end <= file.length;
        check(inside, Refusal::OutOfRange)?;
        Ok(file.start + block)
    }

    /// The frame that the policy would evict, and its owner.
    #[inline]
    fn candidate(&self) -> (usize, usize) {
        let frame = self.store.victim(None).expect("all frames are in use");
        let owner = self.store.cache.frame(frame as u32).expect("it is in use").owner;
        (frame, usize::from(owner))
    }

    /// Fetches the block that is wanted, up to the graft that is asked whom to evict.
    pub fn fetch(&mut self, process: usize) -> Done {
        let block = self.wanted(process)?;
        let cache = &mut self.store.cache;
        if let Some(frame) = cache.find(block) {
            if self.calls[process].stage != 2 {
                cache.touch(frame);
            }
            return self.fetched(process, frame);
        }
        if let Some(frame) = cache.free() {
            cache.fill(frame, process, block);
            return self.fetched(process, frame);
        }
        let (frame, owner) = self.candidate();
        if self.store.grafts[owner][VICTIM].is_some() {
            let args = [frame as u32, block, self.store.cache.owned(owner), 0];
            return self.ask(process, owner, VICTIM, args);
        }
        self.evict(process, frame, frame)
    }

    fn evict(&mut self, process: usize, frame: usize, candidate: usize) -> Done {
        let block = self.wanted(process)?;
        self.store.cache.replace(frame, candidate, process, block);
        self.fetched(process, frame)
    }

    /// What is done with a block that is in a frame now.
    #[inline]
    fn fetched(&mut self, process: usize, frame: usize) -> Done {
        let call = &mut self.calls[process];
        let (descriptor, block, offset, length) = match call.request {
            Request::Read { descriptor, block, offset, length } => {
                (descriptor, block, offset, length)
            }
            Request::Write { offset, .. } | Request::StreamWrite { offset, .. } => {
                let bytes = &call.bytes[..call.length];
                self.store.cache.patch(frame, offset as usize, bytes);
                return Ok(Next::End(None));
            }
            Request::StreamRead { offset, length, .. } => {
                (call.stage, call.length) = (1, length as usize);
                let bytes = &self.store.cache.bytes(frame)[offset as usize..][..call.length];
                call.bytes[..call.length].copy_from_slice(bytes);
                return Ok(Next::Piece);
            }
            _ => return Ok(Next::End(None)),
        };
        let file =
            self.store.files[process][descriptor as usize].as_mut().ok_or(Refusal::NotOpen)?;
        if call.stage == 2 {
            file.start += 1;
            file.count -= 1;
            return Ok(if file.count == 0 { Next::End(None) } else { Next::Piece });
        }
        call.stage = 1;
        file.sequential = block == file.next;
        file.next = block + 1;
        let bytes = &self.store.cache.bytes(frame)[offset as usize..][..length as usize];
        self.text.data(call.number, bytes);
        Ok(Next::Piece)
    }

    // ---- answers

    /// Finishes the piece that asked, with the answer or, without one, by default.
    pub fn finish(&mut self, process: usize, answer: Option<[u32; 2]>) {
        let call = &self.calls[process];
        let done = match call.request {
            Request::Yield => {
                let next = answer.map_or_else(|| self.store.next(), |answer| answer[0] as usize);
                self.finish_yield(next)
            }
            Request::Read { descriptor, .. } if call.stage == 1 => {
                let descriptor = descriptor as usize;
                self.file(process, descriptor).and_then(|file| {
                    let default = || self.store.ahead(&file);
                    let (start, count) = answer.map_or_else(default, |answer| answer.into());
                    self.finish_ahead(process, descriptor, start, count)
                })
            }
            Request::Serve { .. } => self.finish_handler(process, answer),
            Request::StreamRead { .. } if call.stage == 1 => self.finish_stream(process, answer),
            Request::StreamWrite { .. } if call.stage == 0 => self.finish_stream(process, answer),
            _ => {
                let candidate = self.candidate().0;
                let frame = answer.map_or(candidate, |answer| answer[0] as usize);
                self.evict(process, frame, candidate)
            }
        };
        self.conclude(process, done);
    }
}

/// The port whose events are handled at a point.
fn port_of(point: usize) -> Option<usize> {
    (FIRST_PORT..OUT).contains(&point).then(|| point - FIRST_PORT)
}

/// So much is taken from a balance.
fn take(balance: &mut u64, count: u32) -> Result<(), Refusal> {
    *balance = balance.checked_sub(u64::from(count)).ok_or(Refusal::TooLittle(*balance))?;
    Ok(())
}

fn needs_of_exit<B, F>(process: usize, look: &mut F) -> Look<B>
where
    F: FnMut(Object, Mode) -> Look<B>,
{
    look(Object::QUEUE, Exclusive)?;
    look(Object::CACHE, Exclusive)?;
    look(Object::account(process), Exclusive)?;
    look(Object::account(0), Exclusive)?;
    (0..POINTS).try_for_each(|point| look(Object::graft(process, point), Exclusive))?;
    (0..FILES).try_for_each(|descriptor| look(Object::file(process, descriptor), Exclusive))?;
    (0..CELLS).try_for_each(|cell| look(Object::cell(process, cell), Exclusive))?;
    (0..USER_LOCKS).try_for_each(|lock| look(Object::lock(lock), Exclusive))
}
