//! Lines of no such form (35), and what looks like one and is a remark or a good line.

use super::{on_line, place_of, some_data_line, some_gap, some_number, what, whole, written, Fault, Kind};
use crate::import::generate::remark;
use crate::import::text::{Text, What};
use crate::rng::Rng;

pub fn kinds() -> Vec<Kind> {
    let local = |name, make| Kind { name, local: true, make };
    vec![
        local("a space at the line's start", space_first),
        local("a space at the line's end", space_last),
        local("two spaces", two_spaces),
        local("another byte for a space", no_space),
        local("a space missing", space_missing),
        local("a carriage return at the line's end", carriage_return),
        local("a byte 0 in the line", byte_0),
        local("a byte above 127 in the line", high_byte),
        local("a letter in the line", letter),
        local("a byte next to the digits", next_to_digits),
        local("ten digits", ten_digits),
        local("far more digits", many_digits),
        local("a number in another notation", notation),
        local("an empty field", empty_field),
        local("a field missing", field_missing),
        local("a field too many", field_too_many),
        local("another first letter", first_letter),
        local("another word than sp", problem_word),
        local("an empty line", empty_line),
        local("a line of no form", other_line),
        local("a remark more", remark_more),
        local("nine digits", nine_digits),
        Kind { name: "the last line feed there or not", local: false, make: last_feed },
    ]
}

/// The line becomes one of no such form.
fn malformed(key: usize, change: impl Fn(&mut Vec<u8>) + 'static) -> Option<Fault> {
    on_line(key, move |line| {
        change(&mut line.bytes);
        line.due = Some(35);
    })
}

/// The same of one field.
fn malformed_field(key: usize, field: usize, bytes: Vec<u8>) -> Option<Fault> {
    on_line(key, move |line| {
        line.set_field(field, &bytes);
        line.due = Some(35);
    })
}

fn space_first(rng: &mut Rng, text: &Text) -> Option<Fault> {
    let key = some_data_line(rng, text);
    malformed(key, |bytes| bytes.insert(0, b' '))
}

fn space_last(rng: &mut Rng, text: &Text) -> Option<Fault> {
    let count = rng.pick(&[1, 1, 2, 256]);
    let key = some_data_line(rng, text);
    malformed(key, move |bytes| bytes.extend(vec![b' '; count]))
}

/// One of a line's spaces.
fn some_space(rng: &mut Rng, text: &Text, key: usize) -> usize {
    let bytes = &text.lines[key].bytes;
    let spaces: Vec<usize> = (0..bytes.len()).filter(|&at| bytes[at] == b' ').collect();
    rng.pick(&spaces)
}

fn two_spaces(rng: &mut Rng, text: &Text) -> Option<Fault> {
    let key = some_data_line(rng, text);
    let at = some_space(rng, text, key);
    malformed(key, move |bytes| bytes.insert(at.min(bytes.len()), b' '))
}

fn no_space(rng: &mut Rng, text: &Text) -> Option<Fault> {
    let key = some_data_line(rng, text);
    let at = some_space(rng, text, key);
    let byte = rng.pick(b"\t\t\r\x0b\x0c\0,;_.\xa0");
    malformed(key, move |bytes| {
        if let Some(space) = bytes.get_mut(at) {
            *space = byte;
        }
    })
}

fn space_missing(rng: &mut Rng, text: &Text) -> Option<Fault> {
    let key = some_data_line(rng, text);
    let at = some_space(rng, text, key);
    malformed(key, move |bytes| {
        if at < bytes.len() {
            bytes.remove(at);
        }
    })
}

fn carriage_return(rng: &mut Rng, text: &Text) -> Option<Fault> {
    let key = some_data_line(rng, text);
    malformed(key, |bytes| bytes.push(b'\r'))
}

/// A byte put anywhere from `first` on.
fn byte_in(rng: &mut Rng, text: &Text, first: usize, byte: u8) -> Option<Fault> {
    let key = some_data_line(rng, text);
    let length = text.lines[key].bytes.len();
    let anywhere = rng.within(first, length);
    let at = rng.pick(&[first, length, anywhere]);
    malformed(key, move |bytes| bytes.insert(at.min(bytes.len()), byte))
}

fn byte_0(rng: &mut Rng, text: &Text) -> Option<Fault> {
    byte_in(rng, text, 0, 0)
}

fn high_byte(rng: &mut Rng, text: &Text) -> Option<Fault> {
    let byte = rng.pick(&[128, 0xa0, 0xb1, 0xe3, 0xf0, 255]);
    byte_in(rng, text, 0, byte)
}

/// Not at the line's start, where a `c` would make it a remark.
fn letter(rng: &mut Rng, text: &Text) -> Option<Fault> {
    let byte = rng.pick(b"acpsxeAP");
    byte_in(rng, text, 1, byte)
}

fn next_to_digits(rng: &mut Rng, text: &Text) -> Option<Fault> {
    let key = some_data_line(rng, text);
    let (field, mut bytes) = some_number(rng, text, key);
    let at = rng.below(bytes.len());
    bytes[at] = rng.pick(b"/:");
    malformed_field(key, field, bytes)
}

/// The number with zeros in front, so many digits in all.
fn with_digits(rng: &mut Rng, text: &Text, count: usize) -> (usize, usize, Vec<u8>) {
    let key = some_data_line(rng, text);
    let (field, bytes) = some_number(rng, text, key);
    let mut longer = vec![b'0'; count.saturating_sub(bytes.len())];
    longer.extend(bytes);
    (key, field, longer)
}

fn ten_digits(rng: &mut Rng, text: &Text) -> Option<Fault> {
    let (key, field, bytes) = with_digits(rng, text, 10);
    malformed_field(key, field, bytes)
}

/// So many, too, that a small counter of digits would come round.
fn many_digits(rng: &mut Rng, text: &Text) -> Option<Fault> {
    let count = rng.pick(&[11, 18, 20, 32, 64, 257, 265, 300, 65_537, 65_545]);
    let (key, field, bytes) = with_digits(rng, text, count);
    malformed_field(key, field, bytes)
}

fn nine_digits(rng: &mut Rng, text: &Text) -> Option<Fault> {
    let (key, field, bytes) = with_digits(rng, text, 9);
    on_line(key, move |line| line.set_field(field, &bytes))
}

fn notation(rng: &mut Rng, text: &Text) -> Option<Fault> {
    let key = some_data_line(rng, text);
    let (field, bytes) = some_number(rng, text, key);
    let number = String::from_utf8_lossy(&bytes).into_owned();
    let other = match rng.below(8) {
        0 => format!("+{number}"),
        1 => format!("-{number}"),
        2 => format!("{number}."),
        3 => format!("{number}.0"),
        4 => format!("0x{number}"),
        5 => format!("{number}e0"),
        6 => format!("{number},000"),
        _ => format!("'{number}'"),
    };
    malformed_field(key, field, other.into_bytes())
}

fn empty_field(rng: &mut Rng, text: &Text) -> Option<Fault> {
    let key = some_data_line(rng, text);
    let field = rng.below(4);
    malformed_field(key, field, Vec::new())
}

fn field_missing(rng: &mut Rng, text: &Text) -> Option<Fault> {
    let key = some_data_line(rng, text);
    let field = rng.below(4);
    on_line(key, move |line| {
        let mut fields = line.fields();
        if field < fields.len() {
            fields.remove(field);
        }
        line.bytes = fields.join(&b' ');
        line.due = Some(35);
    })
}

fn field_too_many(rng: &mut Rng, text: &Text) -> Option<Fault> {
    let key = some_data_line(rng, text);
    let more = match rng.below(5) {
        0 => b" 1".repeat(256),
        1 => b" c".to_vec(),
        2 => b" x".to_vec(),
        _ => [b" ".to_vec(), written(rng, 1)].concat(),
    };
    malformed(key, move |bytes| bytes.extend_from_slice(&more))
}

/// Any but `c`.
fn first_letter(rng: &mut Rng, text: &Text) -> Option<Fault> {
    let key = some_data_line(rng, text);
    let words: &[&[u8]] = match what(text, key) {
        What::Sizes => &[b"P", b"a", b"pp", b"q", b"o", b"e", b"p1", b"\xf0"],
        _ => &[b"A", b"p", b"aa", b"b", b"`", b"e", b"n", b"arc", b"a1", b"\xe1"],
    };
    let word = rng.pick(words);
    malformed_field(key, 0, word.to_vec())
}

fn problem_word(rng: &mut Rng, text: &Text) -> Option<Fault> {
    let words: [&[u8]; 10] = [b"SP", b"Sp", b"s", b"p", b"spp", b"sp1", b"max", b"ps", b"aux sp", b"sp sp"];
    let word = rng.pick(&words);
    malformed_field(text.sizes_key(), 1, word.to_vec())
}

/// A new line anywhere.
fn new_line(rng: &mut Rng, text: &Text, bytes: Vec<u8>, due: Option<u32>) -> Option<Fault> {
    let gap = some_gap(rng, text, None);
    whole(move |text| text.insert(place_of(text, gap), &bytes, due))
}

fn empty_line(rng: &mut Rng, text: &Text) -> Option<Fault> {
    new_line(rng, text, Vec::new(), Some(35))
}

fn other_line(rng: &mut Rng, text: &Text) -> Option<Fault> {
    let lines: [&[u8]; 24] = [
        b"C remark",
        b"C",
        b" c",
        b"\tc",
        b"\0c",
        b"#",
        b"%c",
        b" ",
        b"\r",
        b"\t",
        b"\0",
        b"\xff",
        b"a",
        b"a ",
        b"a 1",
        b"a 1 2",
        b"p",
        b"p sp",
        b"p sp 1",
        b"sp 1 0",
        b"1 2 3",
        b"e 1 2 3",
        b"n 1 s",
        b"a  2 3",
    ];
    let line = rng.pick(&lines);
    new_line(rng, text, line.to_vec(), Some(35))
}

fn remark_more(rng: &mut Rng, text: &Text) -> Option<Fault> {
    let longest = if rng.once_in(16) { 5_000 } else { 30 };
    let line = remark(rng, longest);
    new_line(rng, text, line, None)
}

/// Not beside an empty last line, which needs its own.
fn last_feed(_rng: &mut Rng, text: &Text) -> Option<Fault> {
    let fed = !text.fed;
    whole(move |text| text.fed = fed)
}
