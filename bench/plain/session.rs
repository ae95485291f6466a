//! A run of a script: its lines, one after another, and what they write.

use crate::disk;
use crate::kernel::{Kernel, SetUp};
use crate::script::{self, Bytes, Entry, LONGEST};
use crate::text::Text;

pub struct Session {
    key: [u8; 32],
    set_up: SetUp,
    kernel: Option<Box<Kernel>>,
    /// What is written where there is no kernel yet.
    first: Text,
    bytes: Box<Bytes>,
    /// How many lines and events there were.
    line: u32,
    event: u32,
}

impl Session {
    pub fn new(key: [u8; 32]) -> Session {
        Session {
            key,
            set_up: SetUp { frames: 8, patience: [10; 8], grant: 1_000_000 },
            kernel: None,
            first: Text::new(),
            bytes: Bytes::new(),
            line: 0,
            event: 0,
        }
    }

    /// What was written since it was last cleared.
    #[inline]
    pub fn text(&mut self) -> &mut Text {
        match &mut self.kernel {
            Some(kernel) => &mut kernel.text,
            None => &mut self.first,
        }
    }

    /// Runs the first line of a text that has a newline, and says how many bytes it has with that.
    /// Where the line is refused it gives nothing.
    #[inline(never)]
    pub fn run_line(&mut self, text: &[u8]) -> Option<usize> {
        self.line += 1;
        match script::parse(text, self.kernel.is_some(), &mut self.bytes) {
            Some((entry, count)) if count <= LONGEST + 1 => {
                self.run(entry);
                Some(count)
            }
            _ => {
                let end = text.iter().position(|&byte| byte == b'\n').unwrap_or(text.len());
                self.refuse(script::fault(&text[..end], self.kernel.is_some()));
                None
            }
        }
    }

    /// Refuses what comes behind the last line.
    pub fn refuse_rest(&mut self, code: u8) {
        self.line += 1;
        self.refuse(code);
    }

    fn refuse(&mut self, code: u8) {
        let line = self.line;
        let text = self.text();
        text.word("script");
        text.next(line);
        text.word(" S");
        text.number(code.into());
        text.end();
    }

    fn run(&mut self, entry: Entry) {
        let Some(kernel) = &mut self.kernel else {
            return self.set(entry);
        };
        if let Entry::Blank = entry {
            return;
        }
        self.event += 1;
        let number = self.event;
        match entry {
            Entry::Call { process, request } => {
                kernel.event_of_call(number, process, request, self.bytes.list());
            }
            Entry::Step { process, count } => kernel.event_of_step(number, process, count),
            Entry::Tick => kernel.event_of_tick(number),
            Entry::Raw => kernel.event_of_raw(number),
            Entry::Image { slot } => {
                kernel.event_of_image(number, slot, &self.key, self.bytes.list());
            }
            _ => {}
        }
    }

    fn set(&mut self, entry: Entry) {
        match entry {
            Entry::Frames(count) => self.set_up.frames = count,
            Entry::Patience(kind, ticks) => self.set_up.patience[kind] = ticks,
            Entry::Grant(count) => self.set_up.grant = count,
            Entry::Boot => {
                let disk = disk::sample();
                let blocks = disk.len() as u64;
                let mut kernel = Kernel::new(&self.set_up, disk);
                kernel.text.word("0 boot");
                kernel.text.next(self.set_up.frames);
                kernel.text.next(blocks);
                kernel.text.next(kernel.store.directory.len() as u64);
                kernel.text.end();
                self.kernel = Some(kernel);
            }
            _ => {}
        }
    }

    /// Writes which calls are in flight.
    pub fn left(&mut self) {
        let Some(kernel) = &mut self.kernel else {
            return;
        };
        for (process, call) in kernel.calls.iter().enumerate() {
            if call.number != 0 {
                kernel.text.word("left");
                kernel.text.next(process as u64);
                kernel.text.next(call.number);
                kernel.text.end();
            }
        }
    }
}
