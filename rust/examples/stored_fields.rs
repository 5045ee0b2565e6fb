//! Judges the stored fields of a lift, as a nightly job does: whether each is what encode wrote for its context, and how long the name is that was
//! typed. Nothing is written back, so there is no buffer in this program at all. c/stored_fields.c prints the same lines.
use lintelrye::{check, Context, Refusal};

/// The fields: name, context, and what is stored, which need not be UTF-8.
const FIELDS: [(&str, Context, &[u8]); 9] = [
    ("landing 1", Context::Text, b"Hall"),
    ("landing 2", Context::Quoted, b"Mum &amp; Dad&#x27;s"),
    ("landing 3", Context::Quoted, b"Mum &amp; Dad's"),
    ("landing 4", Context::ScriptSingle, b"Dad\\'s \\x3Cden>"),
    ("landing 5", Context::Text, b"Salle \xC3\xA0 manger"),
    ("landing 6", Context::Text, b"Salle \xC3"),
    ("landing 7", Context::Text, b"Salle \xE0 manger"),
    ("landing 8", Context::Text, b""),
    ("landing 9", Context::ScriptRaw, b"f()"),
];

/// Says what is known of a field, and returns whether it is in form.
fn judge(name: &str, context: Context, stored: &[u8]) -> bool {
    let checked = check(context, stored);
    match checked {
        Ok(length) => println!("{}: in form, {} bytes were typed", name, length),
        Err(Refusal::NotAForm { place }) => println!("{}: not what encode writes, from byte {} on", name, place),
        Err(Refusal::NotUtf8 { place }) => println!("{}: not UTF-8, from byte {} on", name, place),
        Err(Refusal::CutShort { place }) => println!("{}: cut off in the character at byte {}", name, place),
        Err(_) => println!("{}: its context or its length is wrong", name),
    }
    checked.is_ok()
}

fn main() {
    let faults = FIELDS.iter().filter(|(name, context, stored)| !judge(name, *context, stored)).count();
    println!("{} of {} fields need a look", faults, FIELDS.len());
}
