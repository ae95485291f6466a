//! The kernel: its calls in flight, the order in which they wait, and its events.

use crate::graft::{Cause, Change, Level};
use crate::image::{self, Image};
use crate::object::{Holdings, Mode, Object};
use crate::ports::Handlers;
use crate::script::Request;
use crate::segments::Segments;
use crate::store::{PROCESSES, Store};
use crate::text::Text;

pub const LEVELS: usize = 4;
pub const RECORDS_OF_A_CALL: usize = 64;
pub const IMAGES: usize = 32;
const MOST_STEPS: u32 = 65_536;

/// What the lines before `boot` set.
pub struct SetUp {
    pub frames: u32,
    pub patience: [u32; 8],
    pub grant: u32,
}

/// Why a call is refused.
#[derive(Clone, Copy)]
pub enum Refusal {
    NoProcess,
    Busy(u32),
    NotAllowed,
    NoSuchPoint,
    NotOpen,
    NoSuchFile,
    TooManyFiles,
    OutOfRange,
    NoSuchImage,
    Taken,
    NoGraft,
    TooLittle(u64),
    TooManyProcesses,
    HoldsLock,
    HoldsNoLock,
    TimedOut(Object, usize),
    PortFull,
}

impl Refusal {
    fn code(self) -> u64 {
        match self {
            Refusal::NoProcess => 1,
            Refusal::Busy(_) => 2,
            Refusal::NotAllowed => 3,
            Refusal::NoSuchPoint => 4,
            Refusal::NotOpen => 5,
            Refusal::NoSuchFile => 6,
            Refusal::TooManyFiles => 7,
            Refusal::OutOfRange => 8,
            Refusal::NoSuchImage => 9,
            Refusal::Taken => 10,
            Refusal::NoGraft => 11,
            Refusal::TooLittle(_) => 12,
            Refusal::TooManyProcesses => 13,
            Refusal::HoldsLock => 14,
            Refusal::HoldsNoLock => 15,
            Refusal::TimedOut(..) => 17,
            Refusal::PortFull => 18,
        }
    }
}

/// What comes behind a piece of a call.
pub enum Next {
    /// Another piece.
    Piece,
    /// The first instruction of a graft that the piece asks.
    Graft,
    /// The end, with what the call answers.
    End(Option<u64>),
}

/// What a piece comes to.
pub type Done = Result<Next, Refusal>;

/// What a call waits for: the object, how it wants it, the process in the way, and the number of
/// that one's call, or 0 where it is its user lock that is in the way.
#[derive(Clone, Copy, PartialEq, Eq)]
pub struct Blocker {
    pub object: Object,
    pub mode: Mode,
    pub holder: usize,
    pub call: u32,
}

/// The call of a process. Its number is 0 where none is in flight.
pub struct Call {
    pub number: u32,
    pub request: Request,
    /// Which piece is next.
    pub stage: u8,
    /// The levels, outermost first.
    pub levels: [Level; LEVELS],
    pub depth: usize,
    /// What puts back the changes of all levels, oldest first.
    pub records: [Change; RECORDS_OF_A_CALL],
    pub changes: usize,
    /// Whether it stands in the order of waiting, what it waits for, and for how many ticks.
    pub waits: bool,
    pub blocker: Option<Blocker>,
    pub count: u32,
    /// The bytes that it writes, and those that a graft is fed.
    pub bytes: [u8; crate::disk::BLOCK],
    pub length: usize,
    /// Who is asked to handle its event, and how many of them have done it.
    pub handlers: Handlers,
    pub handled: u32,
}

impl Call {
    fn none() -> Call {
        Call {
            number: 0,
            request: Request::Spawn,
            stage: 0,
            levels: [Level::none(); LEVELS],
            depth: 0,
            records: [Change::Cell { process: 0, cell: 0, value: 0 }; RECORDS_OF_A_CALL],
            changes: 0,
            waits: false,
            blocker: None,
            count: 0,
            bytes: [0; crate::disk::BLOCK],
            length: 0,
            handlers: Handlers::NONE,
            handled: 0,
        }
    }
}

pub struct Kernel {
    pub store: Store,
    pub clock: u32,
    pub calls: [Call; PROCESSES],
    /// The processes whose calls have a level, as bits.
    pub in_graft: u16,
    pub holdings: Holdings,
    /// The processes whose calls wait, or whose next step is a piece, in their order.
    order: [u8; PROCESSES],
    waiting: usize,
    patience: [u32; 8],
    pub images: [Option<Box<Image>>; IMAGES],
    pub segments: Segments,
    pub text: Text,
}

impl Kernel {
    pub fn new(set_up: &SetUp, disk: Vec<crate::disk::Block>) -> Box<Kernel> {
        Box::new(Kernel {
            store: Store::new(set_up.frames as usize, set_up.grant, disk),
            clock: 0,
            calls: std::array::from_fn(|_| Call::none()),
            in_graft: 0,
            holdings: Holdings::new(),
            order: [0; PROCESSES],
            waiting: 0,
            patience: set_up.patience,
            images: [const { None }; IMAGES],
            segments: Segments::new(),
            text: Text::new(),
        })
    }

    // ---- what is written

    /// Begins the line of a call or an event.
    #[inline(always)]
    pub fn begin(&mut self, number: u32, word: &str) {
        self.text.number(u64::from(number));
        self.text.word(word);
    }

    /// A refusal, for the call or the event of that number.
    fn refuse(&mut self, number: u32, refusal: Refusal) {
        self.text.refused += 1;
        self.begin(number, " E");
        self.text.number(refusal.code());
        match refusal {
            Refusal::Busy(call) => self.text.next(call),
            Refusal::TooLittle(balance) => self.text.next(balance),
            Refusal::TimedOut(object, holder) => {
                object.write(&mut self.text);
                self.text.next(holder as u64);
            }
            _ => {}
        }
        self.text.end();
    }

    /// What a piece comes to, for its call.
    #[inline]
    pub fn conclude(&mut self, process: usize, done: Done) {
        let number = self.calls[process].number;
        match done {
            Ok(Next::Piece | Next::Graft) => return,
            Ok(Next::End(answer)) => {
                self.text.ended += 1;
                self.begin(number, " ok");
                if let Some(answer) = answer {
                    self.text.next(answer);
                }
                self.text.end();
            }
            Err(refusal) => self.refuse(number, refusal),
        }
        self.calls[process].number = 0;
    }

    /// Where the call of a process stands at the end of its event, if it is still in flight.
    #[inline]
    fn tell(&mut self, process: usize) {
        let call = &self.calls[process];
        if call.number == 0 {
            return;
        }
        let (number, depth) = (call.number, call.depth);
        if let (true, Some(blocker)) = (call.waits, call.blocker) {
            self.begin(number, " waits");
            blocker.object.write(&mut self.text);
            self.text.next(blocker.holder as u64);
        } else {
            let Level { process, point, .. } = call.levels[depth - 1];
            self.begin(number, " graft");
            self.text.next(process);
            self.text.next(point);
            self.text.next(depth as u64);
        }
        self.text.end();
    }

    // ---- the order of waiting

    /// The processes whose calls wait, in their order.
    pub fn order(&self) -> &[u8] {
        &self.order[..self.waiting]
    }

    /// The call comes into the order, at its end.
    pub fn join(&mut self, process: usize) {
        let call = &mut self.calls[process];
        (call.waits, call.blocker, call.count) = (true, None, 0);
        self.order[self.waiting] = process as u8;
        self.waiting += 1;
        self.holdings.changed = true;
    }

    /// The call comes into the order if its next step is a piece.
    pub fn join_if_piece(&mut self, process: usize) {
        let call = &self.calls[process];
        if call.number != 0 && call.depth == 0 {
            self.join(process);
        }
    }

    /// The call leaves the order, if it stands there.
    fn quit(&mut self, process: usize) {
        if !std::mem::take(&mut self.calls[process].waits) {
            return;
        }
        let order = &mut self.order[..self.waiting];
        let at = order.iter().position(|&other| usize::from(other) == process);
        order[at.expect("it stands there")..].rotate_left(1);
        self.waiting -= 1;
    }

    /// Lets calls go on until each one in the order is blocked.
    fn settle(&mut self) {
        let mut blockers = [None; PROCESSES];
        let mut at = 0;
        while at < self.waiting {
            let process = usize::from(self.order[at]);
            blockers[at] = self.blocker(process);
            at += 1;
            if blockers[at - 1].is_none() {
                self.quit(process);
                self.step(process);
                at = 0;
            }
        }
        self.holdings.changed = false;
        for (process, blocker) in self.order[..self.waiting].iter().zip(blockers) {
            let call = &mut self.calls[usize::from(*process)];
            if call.blocker != blocker {
                (call.blocker, call.count) = (blocker, 0);
            }
        }
    }

    /// One step of a call that isn't blocked.
    fn step(&mut self, process: usize) {
        if self.calls[process].depth > 0 {
            self.run_level(process, 1);
        } else {
            let done = self.piece(process);
            self.conclude(process, done);
        }
        self.join_if_piece(process);
    }

    // ---- events

    pub fn event_of_call(&mut self, number: u32, process: u32, request: Request, bytes: &[u8]) {
        if !self.store.lives(process) {
            return self.refuse(number, Refusal::NoProcess);
        }
        let process = process as usize;
        let call = &mut self.calls[process];
        if call.number != 0 {
            let busy = Refusal::Busy(call.number);
            return self.refuse(number, busy);
        }
        if let Err(refusal) = self.early(process, &request, bytes.len()) {
            return self.refuse(number, refusal);
        }
        let call = &mut self.calls[process];
        (call.number, call.request, call.stage) = (number, request, 0);
        if request.has_bytes() {
            call.bytes[..bytes.len()].copy_from_slice(bytes);
            call.length = bytes.len();
        }
        self.go(process);
        self.tell(process);
    }

    /// A call begins. Where no other one waits it takes piece after piece, and settling is no more.
    #[inline]
    fn go(&mut self, process: usize) {
        if self.waiting == 0 {
            while self.blocker(process).is_none() {
                let done = self.piece(process);
                self.conclude(process, done);
                let call = &self.calls[process];
                if call.number == 0 || call.depth > 0 {
                    return;
                }
            }
        }
        self.join(process);
        self.settle();
    }

    pub fn event_of_step(&mut self, number: u32, process: u32, most: u32) {
        if !self.store.lives(process) {
            return self.refuse(number, Refusal::NoProcess);
        }
        if most.wrapping_sub(1) >= MOST_STEPS {
            return self.refuse(number, Refusal::OutOfRange);
        }
        let process = process as usize;
        let mut ran = 0;
        while ran < most && self.calls[process].depth > 0 && !self.calls[process].waits {
            let (taken, is_blocked) = self.run_level(process, most - ran);
            ran += taken;
            if is_blocked {
                self.join(process);
            } else {
                self.join_if_piece(process);
            }
            if self.holdings.changed {
                self.settle();
            }
            if is_blocked {
                break;
            }
        }
        self.begin(number, " ran");
        self.text.next(ran);
        self.text.end();
        self.tell(process);
    }

    pub fn event_of_tick(&mut self, number: u32) {
        self.clock += 1;
        self.begin(number, " tick");
        self.text.next(self.clock);
        self.text.end();
        for &process in &self.order[..self.waiting] {
            self.calls[usize::from(process)].count += 1;
        }
        while let Some((process, blocker)) = self.expired() {
            self.time_out(process, blocker);
            self.settle();
        }
    }

    /// The first call that has waited as long as it may, and what it waits for.
    fn expired(&self) -> Option<(usize, Blocker)> {
        self.order().iter().find_map(|&process| {
            let call = &self.calls[usize::from(process)];
            let blocker = call.blocker?;
            (call.count >= self.patience[blocker.object.kind()])
                .then_some((usize::from(process), blocker))
        })
    }

    fn time_out(&mut self, process: usize, blocker: Blocker) {
        let Blocker { object, mode, holder, call } = blocker;
        let (dropped, level, other) = if call != 0 {
            (holder, self.holdings.outermost(holder, object, mode), process)
        } else if self.calls[process].depth > 0 {
            (process, self.calls[process].depth - 1, holder)
        } else {
            self.quit(process);
            return self.conclude(process, Err(Refusal::TimedOut(object, holder)));
        };
        self.quit(dropped);
        self.drop_level(dropped, level, Cause::TimeOut(object, other));
        self.join_if_piece(dropped);
    }

    /// A sealed image is loaded into a slot.
    pub fn event_of_image(&mut self, number: u32, slot: u32, key: &[u8; 32], bytes: &[u8]) {
        self.text.number(u64::from(number));
        match self.images.get_mut(slot as usize) {
            None => self.text.word(" E8"),
            Some(Some(_)) => self.text.word(" E10"),
            Some(free) => match image::load(key, bytes) {
                Ok(image) => {
                    self.text.word(" ok");
                    self.text.next(image.count as u64);
                    self.text.next(image.data.len() as u64);
                    *free = Some(image);
                }
                Err(image::Fault(code, place)) => {
                    self.text.word(" L");
                    self.text.number(u64::from(code));
                    if let Some(place) = place {
                        self.text.next(place as u64);
                    }
                }
            },
        }
        self.text.end();
    }
}
