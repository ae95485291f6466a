//! A host in Rust over the static library.
//!
//! usage: host FOLDER

#[repr(C)]
struct Keys {
    count: u32,
    first: [u8; 32],
    second: [u8; 32],
}

#[repr(C)]
#[derive(Clone, Copy, Debug, PartialEq)]
struct Word {
    value: u32,
    owner: u32,
    readers: u32,
}

#[repr(C)]
struct Call {
    heads: [u32; 7],
    machine: [u32; 17],
    count: u32,
    records: [[u32; 4]; 64],
    segment: [u8; 4096],
}

#[repr(C)]
struct Request {
    number: u32,
    point: u32,
    limit: u32,
    fresh: u32,
    arguments: [u32; 4],
}

#[repr(C)]
#[derive(Default, Debug)]
struct Answer {
    kind: u32,
    detail: u32,
    steps: u32,
    given: u32,
    registers: [u32; 4],
}

unsafe extern "C" {
    fn vino_load(keys: *const Keys, image: *const u8, length: usize, plugin: *mut u8, room: usize, place: *mut u32) -> u32;
    fn vino_check(plugin: *const u8, plugin_length: usize) -> u32;
    fn vino_begin(
        plugin: *const u8,
        plugin_length: usize,
        call: *mut Call,
        request: *const Request,
        bytes: *const u8,
        bytes_length: usize,
        segment: *mut [u8; 4096],
        table: *mut Word,
        table_length: usize,
        answer: *mut Answer,
    ) -> u32;
    fn vino_resume(
        plugin: *const u8,
        plugin_length: usize,
        call: *mut Call,
        how: u32,
        word: u32,
        segment: *mut [u8; 4096],
        table: *mut Word,
        table_length: usize,
        answer: *mut Answer,
    ) -> u32;
}

/// A loaded plug-in, a segment, and a call. The references of its methods are what the library asks of pointers.
struct Sandbox {
    plugin: Vec<u8>,
    call: Box<Call>,
    segment: Box<[u8; 4096]>,
}

impl Sandbox {
    /// Loads an image, or gives the number of its refusal.
    fn load(keys: &Keys, image: &[u8]) -> Result<Sandbox, u32> {
        let mut made = Sandbox {
            plugin: vec![0; image.len()], // an image never needs more bytes than it has
            call: Box::new(Call { heads: [0; 7], machine: [0; 17], count: 0, records: [[0; 4]; 64], segment: [0; 4096] }),
            segment: Box::new([0; 4096]),
        };
        let mut place = 0;
        let room = made.plugin.len();
        match unsafe { vino_load(keys, image.as_ptr(), image.len(), made.plugin.as_mut_ptr(), room, &mut place) } {
            0 => Ok(made),
            refusal => Err(refusal),
        }
    }

    /// Calls the plug-in; `host` answers ids 2 to 15, and refuses with `None`.
    fn call(&mut self, request: &Request, table: &mut [Word], host: impl Fn(u32) -> Option<u32>) -> Answer {
        let (plugin, size) = (self.plugin.as_ptr(), self.plugin.len());
        let (call, segment) = (&mut *self.call, &mut *self.segment);
        let (words, length) = (table.as_mut_ptr(), table.len());
        let mut answer = Answer::default();
        unsafe { vino_begin(plugin, size, call, request, [0].as_ptr(), 0, segment, words, length, &mut answer) };
        while answer.kind == 32 {
            let word = host(answer.detail);
            let how = if word.is_some() { 0 } else { 3 };
            unsafe { vino_resume(plugin, size, call, how, word.unwrap_or(0), segment, words, length, &mut answer) };
        }
        answer
    }

    /// Whether the plug-in is still what was loaded.
    fn check(&self) -> bool {
        unsafe { vino_check(self.plugin.as_ptr(), self.plugin.len()) == 0 }
    }
}

fn image(folder: &str, name: &str) -> Vec<u8> {
    let hex = std::fs::read_to_string(format!("{folder}/{name}.hex")).expect("a plug-in");
    let digits = hex.trim().as_bytes();
    digits.chunks(2).map(|two| u8::from_str_radix(std::str::from_utf8(two).expect("hex"), 16).expect("hex")).collect()
}

fn main() {
    let folder = std::env::args().nth(1).expect("a folder");
    let keys = Keys { count: 1, first: [0; 32], second: [0; 32] };
    let mut table = [Word { value: 5, owner: 0, readers: 0 }; 3];
    for name in ["count", "bad-divides", "ask"] {
        let mut plugin = Sandbox::load(&keys, &image(&folder, name)).expect("an image that loads");
        let request = Request { number: 1, point: 0, limit: 1000, fresh: 1, arguments: [1, 2, 3, 4] };
        let answer = plugin.call(&request, &mut table, |id| (id == 2).then_some(9));
        println!("{name} {answer:?} {:?}", table.map(|word| word.value));
    }
    let mut plugin = Sandbox::load(&keys, &image(&folder, "count")).expect("an image that loads");
    let loaded = plugin.check();
    plugin.plugin[50] ^= 1;
    println!("as loaded: {loaded}; after a stray write: {}", plugin.check());
    // Four threads at once: the library has no state.
    let threads: Vec<_> = (0..4u32)
        .map(|number| {
            let image = image(&folder, "power");
            std::thread::spawn(move || {
                let keys = Keys { count: 1, first: [0; 32], second: [0; 32] };
                let mut plugin = Sandbox::load(&keys, &image).expect("an image that loads");
                let request = Request { number: 1, point: 0, limit: 1000, fresh: 1, arguments: [number, 5, 0, 0] };
                plugin.call(&request, &mut [], |_| None).registers[0]
            })
        })
        .collect();
    println!("{:?}", threads.into_iter().map(|thread| thread.join().expect("a thread")).collect::<Vec<_>>());
}
