//! Pages of a journey log, the same from run to run, and three ways of filling one: by the library into an array, by html-escape with a fresh String a
//! line, and by html-escape into a String that is kept.
use compare::{call, Numbers, Operation};

pub const LINES: usize = 40;
pub const ROOM: usize = 16_384;
pub const SEED: u64 = 2026;

const TEXT: u32 = 1;
const DOUBLE_QUOTED: u32 = 2;

const LANDINGS: [&str; 12] = [
    "Hall",
    "Mum & Dad's",
    "Attic\n(mind your head)",
    "Salle \u{E0} manger",
    "The \"den\"",
    "Cellar <store>",
    "1st floor, Mrs O'Brien & cat",
    "Roof",
    "Garage & bikes",
    "Kitchen",
    "Guest room 'Blue'",
    "Second floor, left of the stairs",
];
const EVENTS: [&str; 6] =
    ["called", "arrived", "door held > 30 s", "arrived; load 4 < 6", "overload & waited, then went on to the landing below", "service"];

/// A journey: the minute of the day, the landing and the event by number.
#[derive(Clone, Copy)]
pub struct Journey {
    minute: usize,
    landing: usize,
    event: usize,
}

impl Journey {
    fn any(numbers: &mut Numbers) -> Journey {
        Journey { minute: numbers.below(1440), landing: numbers.below(LANDINGS.len()), event: numbers.below(EVENTS.len()) }
    }

    /// Returns the time as it is shown.
    fn time(&self) -> [u8; 5] {
        let digit = |n: usize| b'0' + n as u8;
        let (hour, minute) = (self.minute / 60, self.minute % 60);
        [digit(hour / 10), digit(hour % 10), b':', digit(minute / 10), digit(minute % 10)]
    }
}

/// The lines that the page shows. Each page has one journey more, in the place of the oldest.
pub struct Log {
    pub journeys: [Journey; LINES],
    next: usize,
    numbers: Numbers,
}

impl Log {
    /// Returns the log before its first page.
    pub fn begin() -> Log {
        let mut numbers = Numbers(SEED);
        let mut journeys = [Journey { minute: 0, landing: 0, event: 0 }; LINES];
        for journey in &mut journeys {
            *journey = Journey::any(&mut numbers);
        }
        Log { journeys, next: 0, numbers }
    }

    /// Goes on to the next page's log.
    pub fn step(&mut self) {
        self.journeys[self.next] = Journey::any(&mut self.numbers);
        self.next = (self.next + 1) % LINES;
    }
}

/// What two runs are compared by: the length of all pages, and a digest of every thousandth.
#[derive(Clone, Copy, Debug, Default, PartialEq)]
pub struct Mark {
    pub pages: usize,
    pub bytes: u64,
    pub digest: u64,
}

impl Mark {
    pub fn take(&mut self, page: &[u8]) {
        if self.pages % 1000 == 0 {
            for byte in page {
                self.digest = (self.digest ^ u64::from(*byte)).wrapping_mul(0x100_0000_01B3);
            }
        }
        self.pages += 1;
        self.bytes += page.len() as u64;
    }
}

/// A page of fixed room that the library fills; `refused` once something did not go in.
pub struct Page {
    bytes: [u8; ROOM],
    used: usize,
    pub refused: bool,
}

impl Page {
    pub fn empty() -> Page {
        Page { bytes: [0; ROOM], used: 0, refused: false }
    }

    fn put(&mut self, words: &[u8]) {
        match self.bytes.get_mut(self.used..self.used + words.len()) {
            Some(part) => {
                part.copy_from_slice(words);
                self.used += words.len();
            }
            None => self.refused = true,
        }
    }

    fn put_text(&mut self, context: u32, text: &str) {
        let answer = call(Operation::Encode, false, context, text.as_bytes(), &mut self.bytes[self.used..]);
        match answer.status {
            0 => self.used += answer.length as usize,
            _ => self.refused = true,
        }
    }

    /// Fills the page, and gives what is filled.
    pub fn fill(&mut self, log: &Log) -> &[u8] {
        self.used = 0;
        for journey in &log.journeys {
            self.put(b"<li title=\"");
            self.put_text(DOUBLE_QUOTED, LANDINGS[journey.landing]);
            self.put(b"\">");
            self.put(&journey.time());
            self.put(b" ");
            self.put_text(TEXT, LANDINGS[journey.landing]);
            self.put(b": ");
            self.put_text(TEXT, EVENTS[journey.event]);
            self.put(b"</li>\n");
        }
        &self.bytes[..self.used]
    }
}

/// Returns a line by html-escape, as a fresh String.
pub fn fresh_line(journey: &Journey) -> String {
    format!(
        "<li title=\"{}\">{} {}: {}</li>\n",
        html_escape::encode_double_quoted_attribute(LANDINGS[journey.landing]),
        std::str::from_utf8(&journey.time()).unwrap_or(""),
        html_escape::encode_text(LANDINGS[journey.landing]),
        html_escape::encode_text(EVENTS[journey.event])
    )
}

/// Fills a page by html-escape in a String that is kept: nothing is asked for once that is long enough.
pub fn fill_kept(page: &mut String, log: &Log) {
    page.clear();
    for journey in &log.journeys {
        page.push_str("<li title=\"");
        html_escape::encode_double_quoted_attribute_to_string(LANDINGS[journey.landing], page);
        page.push_str("\">");
        page.push_str(std::str::from_utf8(&journey.time()).unwrap_or(""));
        page.push(' ');
        html_escape::encode_text_to_string(LANDINGS[journey.landing], page);
        page.push_str(": ");
        html_escape::encode_text_to_string(EVENTS[journey.event], page);
        page.push_str("</li>\n");
    }
}
