//! Measuring: four passes over the same texts, in rounds that interleave them, and the median of each.

use crate::others::Medians;
use crate::texts::{Case, Kind, FORTY};
use compare::browser::Browser;
use compare::{check, closing_tag, fill_page, parts, Answer, Call, Closing, Field, Filled, Operation, ToVec};
use std::arch::asm;
use std::str::from_utf8;
use std::time::Duration;

/// The room that every result fits into: six times the longest text.
const ROOM: usize = 6 * 65_536;

/// The bytes of a part, where a script is given by parts.
const PART: usize = 4_096;

/// How many rounds are taken, and how long one pass is repeated in a round.
pub struct Effort {
    pub rounds: usize,
    pub round: Duration,
}

/// Medians in nanoseconds per byte of the text that the side gets; where instructions are counted, their number per byte.
pub struct Row {
    pub case: Case,
    /// The most that `ratio` may be. Counts have no limit.
    pub limit: Option<f64>,
    /// The library.
    pub ours: f64,
    /// The crate alone.
    pub alone: f64,
    /// The crate after `std::str::from_utf8`.
    pub checked: f64,
    /// A copy of the text.
    pub copied: f64,
    /// Other libraries, where they were timed.
    pub others: Medians,
    /// How far apart the quartiles of ours and of the checked crate are, as a part of the median (the larger one).
    pub spread: f64,
}

impl Row {
    /// The ratio that is limited, to the two digits that are printed.
    pub fn ratio(&self) -> f64 {
        (100.0 * self.ours / self.checked).round() / 100.0
    }

    pub fn above(&self) -> bool {
        self.limit.map_or(false, |limit| self.ratio() > limit)
    }
}

/// Where the passes write.
pub struct Rooms {
    ours: Vec<u8>,
    alone: Vec<u8>,
    checked: Vec<u8>,
    copied: Vec<u8>,
}

impl Rooms {
    pub fn new() -> Rooms {
        let room = || vec![0; ROOM];
        Rooms { ours: room(), alone: room(), checked: room(), copied: room() }
    }
}

/// Keeps the compiler from leaving out what computes a value, or from knowing it.
fn keep<T: ?Sized>(value: &T) -> &T {
    // SAFETY: the code is empty.
    unsafe { asm!("/* {0} */", in(reg) value as *const T as *const u8, options(nostack, preserves_flags)) };
    value
}

/// A page of forty texts of a case: the texts joined, and a record for each.
struct Page {
    text: String,
    fields: Vec<Field>,
}

fn pages(case: &Case) -> Vec<Page> {
    let page = |texts: &[(usize, &String)]| {
        let mut page = Page { text: String::new(), fields: Vec::new() };
        for (i, text) in texts {
            let answer = Answer { status: 0, length: 0, same: 0, replaced: 0, place: 0, left: 0, reason: 0 };
            page.fields.push(Field { context: case.context_of(*i) as u32, start: page.text.len() as u64, length: text.len() as u64, begins: 0, answer });
            page.text += text;
        }
        page
    };
    case.texts.iter().enumerate().collect::<Vec<_>>().chunks(FORTY).map(page).collect()
}

/// Whether every page holds what the crate gives for its texts, one behind the other.
fn compare_pages(case: &Case, rooms: &mut Rooms) -> Result<(), String> {
    for (i, (page, texts)) in pages(case).iter_mut().zip(case.texts.chunks(FORTY)).enumerate() {
        let filled = fill_page(&mut page.fields, page.text.as_bytes(), &mut rooms.ours);
        rooms.alone.clear();
        for (j, text) in texts.iter().enumerate() {
            case.theirs(FORTY * i + j)(text, &mut rooms.alone);
        }
        let length = rooms.alone.len();
        if filled != (Filled { status: 0, passed: texts.len() as u64 }) || rooms.ours[..length] != rooms.alone[..] {
            return Err(format!("{}, page {}: {:?}, or its bytes are not the crate's", case.name(), i, filled));
        }
    }
    Ok(())
}

/// Whether both sides give the same bytes for every text of the case; the words say where they do not. browse has to give what the HTML Standard's states
/// do; closing_tag, which the crate does not have, has to
/// read every text to its end.
pub fn compare(case: &Case, rooms: &mut Rooms) -> Result<(), String> {
    if case.kind == Kind::Closing {
        let ended = case.texts.iter().position(|text| closing_tag(text.as_bytes()) != Closing { status: 0, found: 0, place: 0 });
        return ended.map_or(Ok(()), |i| Err(format!("{}, text {} ends before its own end", case.name(), i)));
    }
    if case.kind == Kind::Page {
        return compare_pages(case, rooms);
    }
    let (call, others, browser) = (Call::find(case.operation, case.kind == Kind::Borrowing), case.others(), Browser::new());
    for (i, text) in case.texts.iter().enumerate() {
        // No result has this byte: what an earlier text left cannot pass for this one's result.
        rooms.ours[..6 * text.len()].fill(0xFF);
        let answer = match case.kind {
            Kind::Parts => parts::encode(text.as_bytes(), PART, &mut rooms.ours),
            _ => call.make(case.context_of(i) as u32, text.as_bytes(), &mut rooms.ours),
        };
        if answer.status != 0 || answer.length as usize > ROOM {
            return Err(format!("{}, text {}: {:?}", case.name(), i, answer));
        }
        if case.kind == Kind::Check {
            let checked = check(case.context as u32, text.as_bytes());
            if (checked.status, checked.length) != (0, answer.length) {
                return Err(format!("{}, text {}: {:?}, and take gives {} bytes", case.name(), i, checked, answer.length));
            }
        }
        let borrowed = case.kind == Kind::Borrowing && answer.same == 1;
        let ours = if borrowed { text.as_bytes() } else { &rooms.ours[..answer.length as usize] };
        let expected = match case.operation {
            Operation::Browse => browser.read(text, false).0.into_bytes(),
            _ => case.expected(i, &others[i]),
        };
        if ours != expected {
            let place = ours.iter().zip(&expected).take_while(|(one, other)| one == other).count();
            return Err(format!("{}, text {}: from byte {} of the result on it is not what it should be", case.name(), i, place));
        }
    }
    Ok(())
}

/// Measures a case: calibrates each pass (which also warms up), then takes rounds, each of which starts with another pass.
pub fn measure(case: Case, rooms: &mut Rooms, effort: &Effort) -> Row {
    let bytes = case.bytes();
    let mut passes = passes(&case, rooms);
    let mut repeats = [0; 4];
    for (pass, repeats) in passes.iter_mut().zip(&mut repeats) {
        *repeats = calibrate(pass, effort.round);
    }
    let mut times: [Vec<f64>; 4] = Default::default();
    for round in 0..effort.rounds {
        for turn in 0..4 {
            let i = (round + turn) % 4;
            let spent = time(&mut passes[i], repeats[i]);
            times[i].push(spent.as_nanos() as f64 / repeats[i] as f64 / bytes[i] as f64);
        }
    }
    drop(passes);
    for times in &mut times {
        times.sort_by(f64::total_cmp);
    }
    let part = |i: usize, quarters: usize| times[i][(times[i].len() - 1) * quarters / 4];
    let spread = |i: usize| (part(i, 3) - part(i, 1)) / part(i, 2);
    let spread = spread(0).max(spread(2));
    Row { limit: case.limit(), case, ours: part(0, 2), alone: part(1, 2), checked: part(2, 2), copied: part(3, 2), others: [None; 2], spread }
}

pub type Pass<'a> = Box<dyn FnMut() + 'a>;

/// The four passes over the texts of a case: ours, the crate alone, the crate after from_utf8, a copy.
pub fn passes<'a>(case: &'a Case, rooms: &'a mut Rooms) -> [Pass<'a>; 4] {
    let (call, theirs) = (Call::find(case.operation, case.kind == Kind::Borrowing), case.theirs(0));
    let (others, again) = (case.others(), case.others());
    let each = move || case.texts.iter().map(|text| keep(text.as_str()));
    if let Kind::Page | Kind::Singly = case.kind {
        return page_passes(case, rooms);
    }
    let Rooms { ours, alone, checked, copied } = rooms;
    let calls: Pass = match case.kind {
        Kind::Check => Box::new(move || {
            each().for_each(|text| {
                keep(&check(case.context as u32, text.as_bytes()));
            })
        }),
        Kind::Closing => Box::new(move || {
            each().for_each(|text| {
                keep(&closing_tag(text.as_bytes()));
            })
        }),
        Kind::Parts => Box::new(move || {
            each().for_each(|text| {
                keep(&parts::encode(text.as_bytes(), PART, ours));
            })
        }),
        _ => Box::new(move || {
            each().for_each(|text| {
                keep(&call.make(case.context as u32, text.as_bytes(), ours));
            })
        }),
    };
    [
        calls,
        Box::new(move || {
            others.iter().for_each(|text| {
                alone.clear();
                keep(theirs(keep(text.as_str()), alone));
            })
        }),
        Box::new(move || {
            again.iter().for_each(|text| {
                checked.clear();
                let text = from_utf8(keep(text.as_str()).as_bytes()).expect("the texts are valid");
                keep(theirs(text, checked));
            })
        }),
        Box::new(move || {
            each().for_each(|text| {
                copied[..text.len()].copy_from_slice(text.as_bytes());
                keep(&copied[..]);
            })
        }),
    ]
}

/// The four passes over pages: in one call or singly, one result behind the other; the crate's forty calls, alone and after from_utf8, likewise; a copy.
/// Contexts, functions and records are there beforehand, on every side.
fn page_passes<'a>(case: &'a Case, rooms: &'a mut Rooms) -> [Pass<'a>; 4] {
    let Rooms { ours, alone, checked, copied } = rooms;
    let call = Call::find(case.operation, false);
    let name = |(i, text): (usize, &'a String)| (case.context_of(i) as u32, case.theirs(i), text.as_str());
    let names: Vec<(u32, ToVec, &str)> = case.texts.iter().enumerate().map(name).collect();
    let (singly, again, copies) = (names.clone(), names.clone(), names.clone());
    let mut pages = pages(case);
    let calls: Pass = if case.kind == Kind::Page {
        Box::new(move || {
            pages.iter_mut().for_each(|page| {
                keep(&fill_page(&mut page.fields, keep(page.text.as_str()).as_bytes(), ours));
            })
        })
    } else {
        Box::new(move || {
            singly.chunks(FORTY).for_each(|page| {
                let mut end = 0;
                for &(context, _, text) in page {
                    end += keep(&call.make(context, keep(text).as_bytes(), &mut ours[end..])).length as usize;
                }
            })
        })
    };
    [
        calls,
        Box::new(move || {
            names.chunks(FORTY).for_each(|page| {
                alone.clear();
                for &(_, theirs, text) in page {
                    keep(theirs(keep(text), alone));
                }
            })
        }),
        Box::new(move || {
            again.chunks(FORTY).for_each(|page| {
                checked.clear();
                for &(_, theirs, text) in page {
                    let text = from_utf8(keep(text).as_bytes()).expect("the texts are valid");
                    keep(theirs(text, checked));
                }
            })
        }),
        Box::new(move || {
            copies.iter().for_each(|&(_, _, text)| {
                copied[..text.len()].copy_from_slice(keep(text).as_bytes());
                keep(&copied[..]);
            })
        }),
    ]
}

/// How often a pass is repeated to fill a round.
fn calibrate(pass: &mut Pass, round: Duration) -> u32 {
    let mut repeats = 1;
    loop {
        let spent = time(pass, repeats);
        if spent * 4 >= round {
            return (repeats as f64 * round.as_secs_f64() / spent.as_secs_f64()).ceil() as u32;
        }
        repeats *= 2;
    }
}

/// How long the repeats of a pass take.
fn time(pass: &mut Pass, repeats: u32) -> Duration {
    let start = processor_time();
    for _ in 0..repeats {
        pass();
    }
    processor_time() - start
}

/// As Linux lays it out on 64-bit processors.
#[repr(C)]
struct Time {
    seconds: i64,
    nanoseconds: i64,
}

extern "C" {
    fn clock_gettime(clock: i32, time: *mut Time) -> i32;
}

/// The processor time of this thread: what else the machine does meanwhile does not count.
fn processor_time() -> Duration {
    const CLOCK_THREAD_CPUTIME_ID: i32 = 3;
    let mut now = Time { seconds: 0, nanoseconds: 0 };
    // SAFETY: the time is valid for writing.
    let failed = unsafe { clock_gettime(CLOCK_THREAD_CPUTIME_ID, &mut now) };
    assert_eq!(failed, 0, "the clock of the thread's processor time cannot be read");
    Duration::new(now.seconds as u64, now.nanoseconds as u32)
}
