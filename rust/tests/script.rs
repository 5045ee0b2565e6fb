//! Scripts by parts: every cut in two and three parts against one call, rooms, refusals and states.
use lintelrye::{encode_script, script_part_at_most, Refusal, ScriptEncoder};

const TEXTS: [&[u8]; 12] = [
    b"",
    b"if (a < b) { c(); }",
    b"<!--",
    b"<!-<!---",
    b"a</script>b",
    b"</SCRIPT/</ScRiPt\t",
    b"<</script",
    b"</scripts></script\x1c",
    b"</script\xE2\x80\xA8<",
    "\u{e9}\u{20ac}\u{1F600}<!--\u{e9}".as_bytes(),
    b"</s</sc</scr</scri</scrip</script",
    b"<!<!-<!--</</script >",
];

fn joined(parts: &[&[u8]]) -> Vec<u8> {
    let mut script = ScriptEncoder::new();
    let mut whole = Vec::new();
    for part in parts {
        let mut page = vec![0; script_part_at_most(part.len())];
        whole.extend_from_slice(script.part(*part, &mut page).unwrap().as_bytes());
    }
    let mut page = [0; script_part_at_most(0)];
    whole.extend_from_slice(script.finish(&mut page).unwrap().as_bytes());
    whole
}

#[test]
fn every_cut_writes_what_one_call_writes() {
    for text in TEXTS {
        let mut page = [0; 256];
        let whole = encode_script(text, &mut page).unwrap();
        for a in 0..=text.len() {
            for b in a..=text.len() {
                assert_eq!(joined(&[&text[..a], &text[a..b], &text[b..]]), whole.as_bytes(), "{:?} cut at {} and {}", text, a, b);
            }
        }
    }
}

#[test]
fn a_refused_call_changes_nothing() {
    let mut script = ScriptEncoder::new();
    let mut page = [0xEE; 16];
    assert_eq!(script.part(b"ab\xE2", &mut page), Ok("ab"));
    let before = script.clone();
    assert_eq!(script.part("(", &mut page), Err(Refusal::NotUtf8 { place: 2 }));
    assert_eq!(script.part(b"\x82\xAC\xFF", &mut page), Err(Refusal::NotUtf8 { place: 5 }));
    assert_eq!(script.finish(&mut page), Err(Refusal::CutShort { place: 2 }));
    assert_eq!(script.part(b"\x82\xAC", &mut page[..2]), Err(Refusal::NoRoom { needed: 3 }));
    assert_eq!(script, before);
    assert_eq!(&page[..4], b"ab\xEE\xEE");
    assert_eq!(script.part(b"\x82\xAC", &mut page), Ok("\u{20ac}"));
    assert_eq!(script.finish(&mut []), Ok(""));
    assert_eq!(script.part("", &mut page), Err(Refusal::Finished));
    assert_eq!(script.finish(&mut page), Err(Refusal::Finished));
}

#[test]
fn the_limit_counts_all_parts() {
    let mut script = ScriptEncoder::new();
    let mut page = vec![0; script_part_at_most(65_536)];
    assert_eq!(script.part(&[b'a'; 65_535], &mut page).map(str::len), Ok(65_535));
    assert_eq!(script.part("<", &mut page), Ok(""));
    assert_eq!(script.part("a", &mut page), Err(Refusal::TooLong));
    assert_eq!(script.part("", &mut page), Ok(""));
    assert_eq!(script.finish(&mut page), Ok("<"));
}
