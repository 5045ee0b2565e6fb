//! Fills one page of a lift's journey log into one fixed buffer and prints it. The names of the landings are typed by the people who live there, so
//! each is encoded for the context of its place: an attribute, element text, a script string, and a script string inside an event attribute, which takes
//! two calls, the inner one first. All forty-eight fields of the page are encoded in one call, with one answer to look at. A line that no longer fits is left out whole, and the page says so. c/journey_log.c prints the same page.
use lintelrye::{Context, Field};
use std::io::Write;

struct Journey {
    time: &'static str,
    landing: &'static str,
    event: &'static str,
}

const fn journey(time: &'static str, landing: &'static str, event: &'static str) -> Journey {
    Journey { time, landing, event }
}

const JOURNEYS: [Journey; 8] = [
    journey("07:58", "Hall", "called"),
    journey("07:59", "Mum & Dad's", "arrived"),
    journey("08:14", "Attic\n(mind your head)", "door held > 30 s"),
    journey("08:20", "The \"den\" </script>", "arrived"),
    journey("08:31", "Salle \u{E0} manger", "called"),
    journey("08:32", "Mum & Dad's", "arrived"),
    journey("08:47", "Hall", "arrived"),
    journey("09:05", "Mum & Dad's", "called"),
];

/// The page's length, and how much of it is kept for its end, which must always fit.
const PAGE: usize = 1400;
const END: usize = 104;

/// The page's beginning, with the functions that its scripts call.
const BEGIN: &str = "<!DOCTYPE html>\n<meta charset=\"utf-8\">\n<title>Journey log</title>\n\
    <script>\nconst seen = [];\nfunction landing(name) { seen.push(name) }\nfunction call(name) { alert('called: ' + name) }\n</script>\n\
    <ul>\n";

/// The fields of a line in the order in which they stand in it: the landing as a title, the time, the landing as text, the event, the landing in a script
/// string, and the handler of a button.
const IN_LINE: usize = 6;
const CONTEXTS: [Context; IN_LINE] =
    [Context::DoubleQuoted, Context::Text, Context::Text, Context::Text, Context::ScriptSingle, Context::DoubleQuoted];

/// Returns the handler of a button, a script that has a name in a string: the name is written for the string here, and the whole handler for the
/// attribute with the other fields. A name that is too long for it gets a handler that does nothing.
fn handler(name: &str) -> String {
    let mut string = [0; 87];
    lintelrye::encode(Context::ScriptSingle, name, &mut string).map_or(String::new(), |string| format!("call('{}')", string))
}

/// Adds the fields of a journey's line, their texts behind those that stand in `text` already.
fn add_journey(journey: &Journey, text: &mut String, fields: &mut Vec<Field>) {
    let handler = handler(journey.landing);
    let texts = [journey.landing, journey.time, journey.landing, journey.event, journey.landing, &handler];
    for (context, part) in CONTEXTS.into_iter().zip(texts) {
        fields.push(Field::new(context, text.len(), part.len()));
        text.push_str(part);
    }
}

/// The page, and how much of it is written and may be written.
struct Page {
    bytes: [u8; PAGE],
    used: usize,
    room: usize,
}

impl Page {
    /// Appends words of our own as they are. Where they do not fit, it leaves the page as it was and returns `None`.
    fn put(&mut self, words: &str) -> Option<()> {
        let end = self.used + words.len();
        if end > self.room {
            return None;
        }
        self.bytes[self.used..end].copy_from_slice(words.as_bytes());
        self.used = end;
        Some(())
    }

    /// Appends the parts of a line, up to the first that does not fit, was refused or was not filled.
    fn put_parts(&mut self, line: &[Field], results: &[u8]) -> Option<()> {
        self.put("<li title=\"")?;
        self.put(&line[0].result(results)?.ok()?)?;
        self.put("\">")?;
        self.put(&line[1].result(results)?.ok()?)?;
        self.put(" ")?;
        self.put(&line[2].result(results)?.ok()?)?;
        self.put(": ")?;
        self.put(&line[3].result(results)?.ok()?)?;
        self.put("<script>landing('")?;
        self.put(&line[4].result(results)?.ok()?)?;
        self.put("')</script> <button onclick=\"")?;
        self.put(&line[5].result(results)?.ok()?)?;
        self.put("\">call</button></li>\n")
    }

    /// Appends a line. Where a part of it is missing, the line is left out whole.
    fn put_line(&mut self, line: &[Field], results: &[u8]) -> Option<()> {
        let before = self.used;
        let put = self.put_parts(line, results);
        if put.is_none() {
            self.used = before;
        }
        put
    }
}

fn main() {
    let (mut text, mut fields, mut results) = (String::new(), Vec::new(), [0; 1536]);
    for journey in &JOURNEYS {
        add_journey(journey, &mut text, &mut fields);
    }
    if let Err(stopped) = lintelrye::fill_page(&mut fields, &text, &mut results) {
        eprintln!("journey_log: {}", stopped);
    }
    let mut page = Page { bytes: [0; PAGE], used: 0, room: PAGE - END };
    let begun = page.put(BEGIN);
    let shown = fields.chunks(IN_LINE).take_while(|line| page.put_line(line, &results).is_some()).count();
    page.room = PAGE;
    let end = format!("</ul>\n<p>{} lines; {} did not fit and were left out</p>\n", shown, JOURNEYS.len() - shown);
    if begun.and_then(|_| page.put(&end)).is_none() {
        eprintln!("journey_log: the page is too short for its beginning and end");
        std::process::exit(1);
    }
    if let Err(error) = std::io::stdout().write_all(&page.bytes[..page.used]) {
        eprintln!("journey_log: the page could not be printed: {}", error);
        std::process::exit(1);
    }
}
