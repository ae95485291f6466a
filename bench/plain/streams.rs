//! The calls whose bytes go through grafts: events of ports, and streams from and to a file.

use crate::calls::Look;
use crate::graft::FED;
use crate::kernel::{Done, Kernel, Next};
use crate::object::Mode::{self, Shared};
use crate::object::Object;
use crate::script::Request;
use crate::store::*;
use std::ops::ControlFlow::Continue;

impl Kernel {
    // ---- events

    /// The process that handles the event of a call next, if there is one.
    fn handler(&self, process: usize) -> Option<usize> {
        let call = &self.calls[process];
        let next = usize::from(call.stage).checked_sub(1)?;
        call.handlers.list().get(next).map(|&handler| usize::from(handler))
    }

    /// First the list of the port, and then one handler after the other.
    pub fn needs_of_event<B, F>(&self, process: usize, look: &mut F) -> Look<B>
    where
        F: FnMut(Object, Mode) -> Look<B>,
    {
        match (self.handler(process), self.calls[process].request) {
            (Some(q), Request::Serve { port }) => {
                self.needs_of_point(q, FIRST_PORT + port as usize, look)
            }
            _ => look(Object::QUEUE, Shared),
        }
    }

    pub fn serve(&mut self, process: usize, port: u32) -> Done {
        let call = &mut self.calls[process];
        if call.stage == 0 {
            call.handlers = self.store.handlers[port as usize];
            call.handled = 0;
            return self.next_handler(process);
        }
        let bytes = call.length as u32;
        let point = FIRST_PORT + port as usize;
        match self.handler(process) {
            Some(q) if self.store.grafts[q][point].is_some() => {
                self.ask(process, q, point, [port, bytes, process as u32, 0])
            }
            _ => self.next_handler(process),
        }
    }

    /// The call goes on with its next handler, or ends where there is none.
    fn next_handler(&mut self, process: usize) -> Done {
        let call = &mut self.calls[process];
        call.stage += 1;
        if usize::from(call.stage) <= call.handlers.list().len() {
            return Ok(Next::Piece);
        }
        Ok(Next::End(Some(u64::from(call.handled))))
    }

    /// A handler has answered, or it was dropped.
    #[inline(never)]
    pub fn finish_handler(&mut self, process: usize, answer: Option<[u32; 2]>) -> Done {
        let call = &mut self.calls[process];
        if let Some([count, _]) = answer {
            call.handled += 1;
            let segment = self.segments.at(call.levels[0].segment);
            self.text.data(call.number, &segment[FED..FED + count as usize]);
        }
        self.next_handler(process)
    }

    // ---- streams

    /// A read fetches its block and then asks, a write asks first.
    pub fn needs_of_stream<B, F>(&self, process: usize, look: &mut F) -> Look<B>
    where
        F: FnMut(Object, Mode) -> Look<B>,
    {
        let call = &self.calls[process];
        match (call.request, call.stage) {
            (Request::StreamRead { .. }, 1) => self.needs_of_point(process, OUT, look),
            (Request::StreamWrite { descriptor, .. }, 0) => {
                look(Object::file(process, descriptor as usize), Shared)?;
                match self.wanted(process) {
                    Ok(_) => self.needs_of_point(process, IN, look),
                    Err(_) => Continue(()),
                }
            }
            _ => self.needs_of_file(process, look),
        }
    }

    /// The place is the block of the file, the offset in it, and the descriptor.
    pub fn stream_read(&mut self, process: usize, place: [u32; 3]) -> Done {
        match self.calls[process].stage {
            0 => self.fetch(process),
            _ => self.transform(process, OUT, place),
        }
    }

    pub fn stream_write(&mut self, process: usize, place: [u32; 3]) -> Done {
        match self.calls[process].stage {
            0 => {
                self.wanted(process)?;
                self.transform(process, IN, place)
            }
            _ => self.fetch(process),
        }
    }

    /// The call's bytes go through a point.
    fn transform(&mut self, process: usize, point: usize, place: [u32; 3]) -> Done {
        if self.store.grafts[process][point].is_none() {
            return self.finish_stream(process, None);
        }
        let [block, offset, descriptor] = place;
        let bytes = self.calls[process].length as u32;
        self.ask(process, process, point, [bytes, block, offset, descriptor])
    }

    /// The bytes of a stream have come out of their point, or stay as they are.
    #[inline(never)]
    pub fn finish_stream(&mut self, process: usize, answer: Option<[u32; 2]>) -> Done {
        let call = &mut self.calls[process];
        let bytes = &mut call.bytes[..call.length];
        if answer.is_some() {
            let segment = self.segments.at(call.levels[0].segment);
            bytes.copy_from_slice(&segment[FED..FED + bytes.len()]);
        }
        if let Request::StreamRead { .. } = call.request {
            self.text.data(call.number, bytes);
            return Ok(Next::End(None));
        }
        call.stage = 1;
        Ok(Next::Piece)
    }
}
