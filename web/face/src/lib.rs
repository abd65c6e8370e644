//! The commands of `p25` as a WebAssembly module. The page writes the arguments of a call to `words`, and then calls `p25`, which reads and writes through
//! the functions `read` and `write` of the page.
//!
//! A module makes one call. Its memory is never freed, and the page makes another instance for the next call.
#![no_std]

use core::alloc::{GlobalAlloc, Layout};
use core::cell::Cell;
use core::ptr;
use p25::io::{Failed, Sink, Source};
use p25::shim::alloc::Global;
use p25::tool::{Line, Words, outcome_status, outcome_text, run};

#[link(wasm_import_module = "page")]
unsafe extern "C" {
    // Writes at most this many octets of the input at a position, and returns how many.
    fn read(at: *mut u8, most: usize) -> usize;
    // Takes this many octets of the output from a position.
    fn write(at: *const u8, count: usize);
    // Takes the line of the outcome.
    fn tell(at: *const u8, count: usize);
}

struct Page;

impl Source for Page {
    fn read(&mut self, buf: &mut [u8]) -> Result<usize, Failed> {
        // SAFETY: the page writes at most this many octets, into `buf`.
        let count = unsafe { read(buf.as_mut_ptr(), buf.len()) };
        if count <= buf.len() { Ok(count) } else { Err(Failed) }
    }
}

impl Sink for Page {
    fn write(&mut self, piece: &[u8]) -> Result<(), Failed> {
        // SAFETY: the page reads this many octets, of `piece`.
        unsafe { write(piece.as_ptr(), piece.len()) };
        Ok(())
    }
}

// The arguments of a call, with an octet 0 after each.
const WORDS_MOST: usize = 256;

struct Room(Cell<[u8; WORDS_MOST]>);

// SAFETY: a module of WebAssembly without shared memory has one thread.
unsafe impl Sync for Room {}

static ROOM: Room = Room(Cell::new([0; WORDS_MOST]));

/// Returns the address for the arguments of the call, which the page writes, each with an octet 0 after it: at most 256 octets.
#[unsafe(no_mangle)]
pub extern "C" fn words() -> *mut u8 {
    ROOM.0.as_ptr().cast()
}

/// Makes the call, and returns its status.
#[unsafe(no_mangle)]
pub extern "C" fn p25() -> u32 {
    let room = ROOM.0.get();
    let mut words = Words::new();
    for word in room.split(|it| *it == 0).take_while(|it| !it.is_empty()) {
        words.add(word);
    }
    let outcome = run(Global, &words, &mut Page, &mut Page);
    let mut line = Line::new();
    outcome_text(&outcome, &mut line);
    // SAFETY: the page reads this many octets, of `line`.
    unsafe { tell(line.octets().as_ptr(), line.octets().len()) };
    u32::from(outcome_status(&outcome))
}

// Memory that grows and is never freed.
struct Growing(Cell<usize>);

// SAFETY: a module of WebAssembly without shared memory has one thread.
unsafe impl Sync for Growing {}

const PAGE: usize = 65_536;

// SAFETY: each call returns octets after those that were returned before, aligned, or null if the memory cannot grow.
unsafe impl GlobalAlloc for Growing {
    unsafe fn alloc(&self, layout: Layout) -> *mut u8 {
        let size = || core::arch::wasm32::memory_size::<0>() * PAGE;
        let from = if self.0.get() == 0 { size() } else { self.0.get() };
        let start = (from + layout.align() - 1) & !(layout.align() - 1);
        let Some(end) = start.checked_add(layout.size()) else {
            return ptr::null_mut();
        };
        if end > size() && core::arch::wasm32::memory_grow::<0>((end - size()).div_ceil(PAGE)) == usize::MAX {
            return ptr::null_mut();
        }
        self.0.set(end);
        ptr::with_exposed_provenance_mut(start)
    }

    unsafe fn dealloc(&self, _at: *mut u8, _layout: Layout) {}
}

#[global_allocator]
static HEAP: Growing = Growing(Cell::new(0));

#[panic_handler]
fn panic(_: &core::panic::PanicInfo<'_>) -> ! {
    core::arch::wasm32::unreachable()
}
