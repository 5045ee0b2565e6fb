//! An allocator that counts, and the heap of a controller to stand in for the system's: what the soak measures with.
//!
//! The controller's heap is of fixed size, as there is no virtual memory: the first free block that is long enough is taken, and free neighbours are
//! joined. Where no block is long enough the shortage is noted and the system serves, so that the program can report it.
//! For programs of one thread.
use std::alloc::{GlobalAlloc, Layout, System};
use std::cell::UnsafeCell;

/// What was asked of the heap since the program began.
#[derive(Clone, Copy, Debug, Default)]
pub struct Counts {
    /// How often memory was asked for, asked for anew at another length, or given back.
    pub calls: u64,
    /// How many bytes were asked for.
    pub bytes: u64,
    /// How many bytes are alive, and the most that were since `forget_most`.
    pub alive: usize,
    pub most: usize,
}

/// The longest request within a stretch of time, and what was free when it came.
#[derive(Clone, Copy, Debug, Default)]
pub struct Request {
    pub asked: usize,
    pub longest: usize,
    pub free: usize,
    /// How many free blocks there were.
    pub blocks: usize,
    /// Whether no block was long enough.
    pub short: bool,
}

const WORDS: usize = 8192;
const NONE: usize = usize::MAX;

/// The memory of the heap. It is reached by its pointer alone, since the program holds parts of it.
struct Memory(UnsafeCell<[usize; WORDS]>);

// SAFETY: the programs that use this have one thread.
unsafe impl Sync for Memory {}

static MEMORY: Memory = Memory(UnsafeCell::new([0; WORDS]));

/// Returns where a word of the memory is.
fn word(at: usize) -> *mut usize {
    assert!(at < WORDS);
    // SAFETY: the place is within the memory.
    unsafe { (MEMORY.0.get() as *mut usize).add(at) }
}

fn get(at: usize) -> usize {
    // SAFETY: a word of the memory that belongs to the heap: the head of a block, or the second word of a free one.
    unsafe { *word(at) }
}

fn set(at: usize, value: usize) {
    // SAFETY: as for `get`.
    unsafe { *word(at) = value }
}

/// The heap: words of eight bytes. A block begins with its length in words; a free one goes on with the place of the next free one.
struct Arena {
    first: usize,
    taken: usize,
    most_taken: usize,
}

impl Arena {
    /// Makes the heap one free block of so many bytes.
    fn begin(&mut self, bytes: usize) {
        set(0, (bytes / 8).min(WORDS));
        set(1, NONE);
        *self = Arena { first: 0, taken: 0, most_taken: 0 };
    }

    /// Makes `next` the free block after `before`, or the first.
    fn link(&mut self, before: usize, next: usize) {
        match before {
            NONE => self.first = next,
            _ => set(before + 1, next),
        }
    }

    /// Takes the first free block that is long enough; what is left of it stays free. Gives the place of the bytes.
    fn take(&mut self, bytes: usize) -> Option<usize> {
        let need = ((bytes + 7) / 8 + 1).max(2);
        let (mut before, mut at) = (NONE, self.first);
        while at != NONE && get(at) < need {
            before = at;
            at = get(at + 1);
        }
        if at == NONE {
            return None;
        }
        let (rest, next) = (get(at) - need, get(at + 1));
        if rest < 2 {
            self.link(before, next);
        } else {
            set(at, need);
            set(at + need, rest);
            set(at + need + 1, next);
            self.link(before, at + need);
        }
        self.taken += get(at) * 8;
        self.most_taken = self.most_taken.max(self.taken);
        Some(at + 1)
    }

    /// Gives a block back and joins it with its free neighbours.
    fn give(&mut self, place: usize) {
        let at = place - 1;
        self.taken -= get(at) * 8;
        let (mut before, mut next) = (NONE, self.first);
        while next != NONE && next < at {
            before = next;
            next = get(next + 1);
        }
        set(at + 1, next);
        self.link(before, at);
        join(at);
        if before != NONE {
            join(before);
        }
    }

    /// Returns the longest free block, all that is free, and the number of free blocks; in bytes that a block can hold.
    fn free(&self) -> (usize, usize, usize) {
        let (mut longest, mut free, mut blocks, mut at) = (0, 0, 0, self.first);
        while at != NONE {
            let bytes = (get(at) - 1) * 8;
            longest = longest.max(bytes);
            free += bytes;
            blocks += 1;
            at = get(at + 1);
        }
        (longest, free, blocks)
    }
}

/// Joins a free block with the next free one where that follows at once.
fn join(at: usize) {
    let next = get(at + 1);
    if next == at + get(at) {
        set(at, get(at) + get(next));
        set(at + 1, get(next + 1));
    }
}

struct State {
    arena: Arena,
    lent: bool,
    counts: Counts,
    request: Request,
}

struct Heap(UnsafeCell<State>);

// SAFETY: the programs that use this have one thread.
unsafe impl Sync for Heap {}

static HEAP: Heap = Heap(UnsafeCell::new(State {
    arena: Arena { first: NONE, taken: 0, most_taken: 0 },
    lent: false,
    counts: Counts { calls: 0, bytes: 0, alive: 0, most: 0 },
    request: Request { asked: 0, longest: 0, free: 0, blocks: 0, short: false },
}));

/// Works on the state. Nothing that it calls allocates, so it is never entered twice.
fn with<R>(work: impl FnOnce(&mut State) -> R) -> R {
    // SAFETY: one thread, and no call from within.
    work(unsafe { &mut *HEAP.0.get() })
}

impl State {
    /// Counts a call, and what it asks for.
    fn count(&mut self, asked: usize, given_back: usize) {
        self.counts.calls += 1;
        self.counts.bytes += asked as u64;
        self.counts.alive = self.counts.alive + asked - given_back;
        self.counts.most = self.counts.most.max(self.counts.alive);
    }

    /// Notes a request, and what is free when it comes.
    fn note(&mut self, asked: usize, short: bool) {
        let (longest, free, blocks) = self.arena.free();
        self.request = Request { asked, longest, free, blocks, short };
    }

    /// Returns a place of the controller's heap while that is lent; none where it is short.
    fn take(&mut self, layout: Layout) -> Option<usize> {
        if !self.lent || layout.align() > 8 {
            return None;
        }
        if layout.size() > self.request.asked && !self.request.short {
            self.note(layout.size(), false);
        }
        let place = self.arena.take(layout.size());
        if place.is_none() && !self.request.short {
            self.note(layout.size(), true);
        }
        place
    }
}

/// Returns which place of the controller's heap a pointer is.
fn place_of(pointer: *mut u8) -> Option<usize> {
    let at = (pointer as usize).wrapping_sub(MEMORY.0.get() as usize) / 8;
    if at < WORDS {
        Some(at)
    } else {
        None
    }
}

/// The allocator of a program that counts.
pub struct Counting;

// SAFETY: memory comes from the system, or is a block of the controller's heap that nobody else has until it is given back.
unsafe impl GlobalAlloc for Counting {
    unsafe fn alloc(&self, layout: Layout) -> *mut u8 {
        let place = with(|state| {
            state.count(layout.size(), 0);
            state.take(layout)
        });
        match place {
            Some(place) => word(place) as *mut u8,
            None => System.alloc(layout),
        }
    }

    unsafe fn dealloc(&self, pointer: *mut u8, layout: Layout) {
        with(|state| state.count(0, layout.size()));
        match place_of(pointer) {
            Some(place) => with(|state| state.arena.give(place)),
            None => System.dealloc(pointer, layout),
        }
    }

    unsafe fn realloc(&self, pointer: *mut u8, layout: Layout, length: usize) -> *mut u8 {
        if place_of(pointer).is_none() && !with(|state| state.lent) {
            with(|state| state.count(length, layout.size()));
            return System.realloc(pointer, layout, length);
        }
        let new = self.alloc(Layout::from_size_align_unchecked(length, layout.align()));
        if !new.is_null() {
            std::ptr::copy_nonoverlapping(pointer, new, layout.size().min(length));
            self.dealloc(pointer, layout);
        }
        new
    }
}

/// Returns what was asked so far.
pub fn counts() -> Counts {
    with(|state| state.counts)
}

/// From here on the most that is alive is counted anew.
pub fn forget_most() {
    with(|state| state.counts.most = state.counts.alive)
}

/// From here on memory comes from the controller's heap, of so many bytes. No block of it may be alive.
pub fn lend(bytes: usize) {
    with(|state| {
        state.arena.begin(bytes);
        state.request = Request::default();
        state.lent = true;
    })
}

/// From here on memory comes from the system again. Gives the most bytes that were taken.
pub fn end_lending() -> usize {
    with(|state| {
        state.lent = false;
        state.arena.most_taken
    })
}

/// Returns the longest request since the last look; after a shortage, the one that found none.
pub fn longest_request() -> Request {
    with(|state| std::mem::take(&mut state.request))
}
