//! The handlers of ports.

/// How many ports there are, and how many handlers one has at most.
pub const PORTS: usize = 8;
const HANDLERS: usize = 8;

/// The processes that handle the events of a port, in the order in which they were installed last.
#[derive(Clone, Copy)]
pub struct Handlers {
    count: usize,
    processes: [u8; HANDLERS],
}

impl Handlers {
    pub const NONE: Handlers = Handlers { count: 0, processes: [0; HANDLERS] };

    #[inline]
    pub fn list(&self) -> &[u8] {
        &self.processes[..self.count]
    }

    /// A process comes last, wherever it stood. Says whether there is room for it.
    pub fn add(&mut self, process: usize) -> bool {
        self.forget(process);
        if self.count == HANDLERS {
            return false;
        }
        self.processes[self.count] = process as u8;
        self.count += 1;
        true
    }

    pub fn forget(&mut self, process: usize) {
        let stands = self.list().iter().position(|&other| usize::from(other) == process);
        if let Some(at) = stands {
            self.processes.copy_within(at + 1..self.count, at);
            self.count -= 1;
        }
    }
}
