//! Every text of some kind: all edits of one byte, and all short strings of telling bytes in one place.

/// Takes a text, and what lies behind it in memory.
type Try<'a> = &'a mut dyn FnMut(&[u8], &[u8]);
type Group = (&'static str, fn(Try));

const GROUPS: [Group; 7] = [
    ("every edit of one byte", |try_it| edits(b"c x\np sp 3 2\na 1 2 30\nc\na 3 1 2880\n", try_it)),
    ("every edit of one byte, without a last line feed", |try_it| edits(ZEROS, try_it)),
    ("every beginning", beginnings),
    ("every `a` line", |try_it| strings(b"p sp 2 1\na", b" 0123a", 6, try_it)),
    ("every weight", |try_it| strings(b"p sp 2 1\na 2 1 ", b"01289 ", 5, try_it)),
    ("every `p` line's word", |try_it| strings(b"p", b" sp10", 6, try_it)),
    ("every `p` line's numbers", |try_it| strings(b"p sp ", b"01359 ", 5, try_it)),
];
pub const COUNT: usize = GROUPS.len();

const ZEROS: &[u8] = b"p sp 000000002 2\na 1 000000002 9\na 2 1 2880";

pub fn name(group: usize) -> &'static str {
    GROUPS[group].0
}

/// A group by its number, which is below `COUNT`.
pub fn every(group: usize, try_it: Try) {
    GROUPS[group].1(try_it);
}

/// At each place: each byte in place of the one there, each byte before it, the one there away.
fn edits(text: &[u8], try_it: Try) {
    for place in 0..=text.len() {
        let (before, from) = text.split_at(place);
        let after = from.get(1..).unwrap_or_default();
        try_it(&[before, after].concat(), b"");
        for byte in 0..=u8::MAX {
            try_it(&[before, &[byte], from].concat(), b"");
            try_it(&[before, &[byte], after].concat(), b"");
        }
    }
}

/// The text up to each place, with the rest behind it.
fn beginnings(try_it: Try) {
    let longer: &[u8] = b"c\np sp 12 3\nc remark\na 1 12 30\na 11 2 2880\nc\na 12 1 111\ncow\nc\r\n";
    for text in [longer, ZEROS, b"p sp 1 0123456789", b"p sp 12 1\na 11 12 1111111111"] {
        for place in 0..=text.len() {
            let (text, behind) = text.split_at(place);
            try_it(text, behind);
        }
    }
}

/// A beginning and every string of up to so many of these bytes.
fn strings(begins: &[u8], letters: &[u8], most: u32, try_it: Try) {
    for length in 0..=most {
        for number in 0..letters.len().pow(length) {
            let mut text = begins.to_vec();
            let mut left = number;
            for _ in 0..length {
                text.push(letters[left % letters.len()]);
                left /= letters.len();
            }
            try_it(&text, b"");
        }
    }
}
