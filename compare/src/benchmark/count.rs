//! Counting: the instructions of each pass, where the program runs under the emulator with the plugin compare/instructions.c.

use crate::clock::{passes, Rooms, Row};
use crate::texts::Case;
use std::fs::File;
use std::os::unix::fs::FileExt;

/// The system call at which the plugin writes its count; Linux has none of this number.
const ASK: i64 = 7_777_777;

extern "C" {
    fn syscall(number: i64, ...) -> i64;
}

/// The file that the plugin writes to.
pub struct Counter(File);

impl Counter {
    /// Returns the counter, or why there is none.
    pub fn open() -> Result<Counter, String> {
        let path = std::env::var("LINTELRYE_COUNT").map_err(|_| "--instructions works only through compare/run".to_string())?;
        let counter = File::open(&path).map(Counter).map_err(|error| format!("{} cannot be read: {}", path, error))?;
        if counter.now() < counter.now() {
            Ok(counter)
        } else {
            Err("the emulator does not count: its plugin was not loaded".to_string())
        }
    }

    /// Returns how many instructions were executed so far; 0 where that cannot be read.
    fn now(&self) -> u64 {
        let mut count = [0; 8];
        // SAFETY: the call has no argument, and the system refuses it.
        unsafe { syscall(ASK) };
        self.0.read_at(&mut count, 0).map_or(0, |_| u64::from_le_bytes(count))
    }
}

/// Counts a case: each pass once to warm up, then once more between two looks at the count. What the looks take themselves is not counted.
pub fn count(case: Case, rooms: &mut Rooms, counter: &Counter) -> Row {
    let bytes = case.bytes();
    let mut passes = passes(&case, rooms);
    let mut counts = [0.0; 4];
    for ((pass, count), bytes) in passes.iter_mut().zip(&mut counts).zip(bytes) {
        pass();
        let (first, second) = (counter.now(), counter.now());
        pass();
        let third = counter.now();
        *count = ((third - second) - (second - first)) as f64 / bytes as f64;
    }
    drop(passes);
    let [ours, alone, checked, copied] = counts;
    Row { limit: None, case, ours, alone, checked, copied, others: [None; 2], spread: 0.0 }
}
