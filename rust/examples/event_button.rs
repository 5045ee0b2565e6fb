//! Writes a button for each landing, whose handler has the landing's name in a script string: a script string inside an attribute. Two encode calls,
//! the inner one first. The whole handler, not the name alone, is the text of the attribute. c/event_button.c prints the same.
use lintelrye::{Context, Refusal, Written};

const LANDINGS: [&str; 5] = ["Hall", "Mum & Dad's", "The \"den\" </script>", "Attic\n(mind your head)", "');alert('x"];

const NAME: usize = 40;
const HANDLER: usize = 16 + lintelrye::encoded_at_most(NAME);
const ATTRIBUTE: usize = lintelrye::encoded_at_most(HANDLER);

/// The front of a buffer, and how much of it is written.
struct Handler {
    bytes: [u8; HANDLER],
    used: usize,
}

impl Handler {
    /// Appends script of our own as it is. Leaves the handler as it was where it does not fit.
    fn put(&mut self, script: &str) -> Result<(), Refusal> {
        let end = self.used + script.len();
        let room = self.bytes.get_mut(self.used..end).ok_or(Refusal::NoRoom { needed: script.len() })?;
        room.copy_from_slice(script.as_bytes());
        self.used = end;
        Ok(())
    }

    /// Appends a name as the content of a script string in single quotes.
    fn put_name(&mut self, name: &str) -> Result<(), Refusal> {
        self.used += lintelrye::encode(Context::ScriptSingle, name, &mut self.bytes[self.used..])?.len();
        Ok(())
    }
}

/// Returns the text of an event attribute in double quotes that calls `landing` with a name.
fn write_handler<'a>(name: &str, output: &'a mut [u8]) -> Result<Written<'a>, Refusal> {
    let mut handler = Handler { bytes: [0; HANDLER], used: 0 };
    handler.put("landing('")?;
    handler.put_name(name)?;
    handler.put("')")?;
    lintelrye::encode(Context::DoubleQuoted, &handler.bytes[..handler.used], output)
}

fn main() {
    let mut attribute = [0; ATTRIBUTE];
    println!("<script>function landing(name) {{ alert(name) }}</script>");
    for (k, landing) in LANDINGS.iter().enumerate() {
        match write_handler(landing, &mut attribute) {
            Ok(handler) => println!("<button onclick=\"{}\">{}</button>", handler, k),
            Err(refusal) => {
                eprintln!("event_button: landing {} is refused: {}", k, refusal);
                std::process::exit(1);
            }
        }
    }
}
