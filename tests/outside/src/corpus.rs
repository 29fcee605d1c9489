//! Inputs kept as files. A corpus file is the four bytes VWC5, 42 numbers of 32 bits, low byte first, the
//! network's bytes and the plan's. The numbers: from, to, departure; pack's number, P, N, R, K, Q and hours;
//! the lengths of the arrival list, the road list, the C trips' answer, the answers of the lists, the check,
//! open and pack, pack's out-bytes, open's eight tables and pack's eight; the network's length and the
//! plan's; the lengths of the planner's work list, out-bytes and answer, and of the day sheet's work list,
//! list and answer.
//!
//! Texts for the import are kept there too, written by hand. Such a file is a line with VWD1 and six decimal
//! numbers, one space apart, and then the text's bytes. The numbers: network number, lengths of the out-bytes
//! and of the answer; and what the wish's words lead to: the refusal or 0, its line and the file's length.

use crate::compare::{compare, compare_import, ImportCall, Verdict};
use crate::input::{Input, Lengths, NO_LISTS};
use crate::library::{import_dimacs, ON_NETWORKS};
use crate::reference::day_sheet::DayLengths;
use crate::reference::make_plan::MakeLengths;
use crate::reference::network::{Header, TABLES};
use crate::reference::trips::TripCall;
use crate::reference::Refusal;
use std::path::{Path, PathBuf};
use std::{fs, io};

const MAGIC: &[u8; 4] = b"VWC5";
const NUMBERS: usize = 42;
const TEXT_MAGIC: &[u8; 5] = b"VWD1 ";
/// No lent list of a corpus file is longer: a plan's most bytes and some.
const MOST_LENGTH: u32 = 8_000_000;

pub fn to_bytes(input: &Input) -> Vec<u8> {
    let (call, pack, lengths) = (input.call, input.pack, input.lengths);
    let mut numbers = vec![call.from, call.to, call.departure];
    numbers.extend([pack.number, pack.period, pack.nodes, pack.arcs, pack.cells, pack.points, pack.hours]);
    let mut counts = vec![
        lengths.arrivals,
        lengths.roads,
        lengths.trip_answer,
        lengths.lists_answer,
        lengths.check_answer,
        lengths.open_answer,
        lengths.pack_answer,
        lengths.pack_out,
    ];
    counts.extend(lengths.open_tables);
    counts.extend(lengths.pack_tables);
    counts.extend([input.network.len(), input.plan.len()]);
    counts.extend([lengths.make.work, lengths.make.out, lengths.make_answer]);
    counts.extend([lengths.day.work, lengths.day.list, lengths.day_answer]);
    numbers.extend(counts.iter().map(|&count| count as u32));
    let mut bytes = MAGIC.to_vec();
    bytes.extend(numbers.iter().flat_map(|number| number.to_le_bytes()));
    bytes.extend_from_slice(&input.network);
    bytes.extend_from_slice(&input.plan);
    bytes
}

/// The numbers at a file's head, from the first on.
struct Numbers(std::vec::IntoIter<u32>);

impl Numbers {
    fn next(&mut self) -> u32 {
        self.0.next().expect("as many as are written")
    }

    fn length(&mut self) -> Option<usize> {
        let length = self.next();
        (length <= MOST_LENGTH).then_some(length as usize)
    }

    fn table_lengths(&mut self) -> Option<[usize; TABLES]> {
        let lengths: Option<Vec<usize>> = (0..TABLES).map(|_| self.length()).collect();
        lengths?.try_into().ok()
    }
}

pub fn from_bytes(bytes: &[u8]) -> Option<Input> {
    let (head, files) = bytes.strip_prefix(MAGIC)?.split_at_checked(4 * NUMBERS)?;
    let words = head.chunks_exact(4);
    let numbers: Vec<u32> = words.map(|word| u32::from_le_bytes([word[0], word[1], word[2], word[3]])).collect();
    let mut numbers = Numbers(numbers.into_iter());
    let call = TripCall { from: numbers.next(), to: numbers.next(), departure: numbers.next() };
    let pack = Header {
        number: numbers.next(),
        period: numbers.next(),
        nodes: numbers.next(),
        arcs: numbers.next(),
        cells: numbers.next(),
        points: numbers.next(),
        hours: numbers.next(),
    };
    let mut lengths = Lengths {
        arrivals: numbers.length()?,
        roads: numbers.length()?,
        trip_answer: numbers.length()?,
        lists_answer: numbers.length()?,
        check_answer: numbers.length()?,
        open_answer: numbers.length()?,
        pack_answer: numbers.length()?,
        pack_out: numbers.length()?,
        open_tables: numbers.table_lengths()?,
        pack_tables: numbers.table_lengths()?,
        make: NO_LISTS,
        make_answer: 0,
        day: DayLengths { work: 0, list: 0 },
        day_answer: 0,
    };
    let (network, plan) = files.split_at_checked(numbers.length()?)?;
    (plan.len() == numbers.length()?).then_some(())?;
    lengths.make = MakeLengths { work: numbers.length()?, out: numbers.length()? };
    lengths.make_answer = numbers.length()?;
    lengths.day = DayLengths { work: numbers.length()?, list: numbers.length()? };
    lengths.day_answer = numbers.length()?;
    Some(Input { network: network.to_vec(), plan: plan.to_vec(), call, pack, lengths })
}

/// A kept text, the call it is for, and the outcome by hand.
struct KeptText {
    text: Vec<u8>,
    number: u32,
    out: usize,
    answer: usize,
    refused: Option<Refusal>,
    length: usize,
}

fn text_from_bytes(bytes: &[u8]) -> Option<KeptText> {
    let rest = bytes.strip_prefix(TEXT_MAGIC)?;
    let end = rest.iter().position(|&byte| byte == b'\n')?;
    let head = std::str::from_utf8(&rest[..end]).ok()?;
    let numbers: Option<Vec<u32>> = head.split(' ').map(|number| number.parse().ok()).collect();
    let [number, out, answer, refusal, line, length] = numbers?.try_into().ok()?;
    Some(KeptText {
        text: rest[end + 1..].to_vec(),
        number,
        out: out as usize,
        answer: answer as usize,
        refused: (refusal != 0).then_some(Refusal { number: refusal, places: [line, 0, 0] }),
        length: length as usize,
    })
}

fn files_of(folder: &Path) -> io::Result<Vec<PathBuf>> {
    let mut paths: Vec<PathBuf> =
        fs::read_dir(folder)?.map(|entry| entry.map(|entry| entry.path())).collect::<Result<_, _>>()?;
    paths.sort();
    Ok(paths)
}

/// The inputs kept in a folder, by name. Texts are left out, and what is no corpus file is named.
pub fn read_folder(folder: &Path) -> io::Result<Vec<(PathBuf, Input)>> {
    let mut inputs = Vec::new();
    for path in files_of(folder)? {
        let bytes = fs::read(&path)?;
        match from_bytes(&bytes) {
            Some(input) => inputs.push((path, input)),
            None if text_from_bytes(&bytes).is_some() => {}
            None => println!("{}: no corpus file", path.display()),
        }
    }
    Ok(inputs)
}

/// The texts kept in a folder, by name.
fn read_texts(folder: &Path) -> io::Result<Vec<(PathBuf, KeptText)>> {
    let mut texts = Vec::new();
    for path in files_of(folder)? {
        if let Some(text) = text_from_bytes(&fs::read(&path)?) {
            texts.push((path, text));
        }
    }
    Ok(texts)
}

/// Runs every file of a folder through all functions; prints each one's refusals and returns the differences.
pub fn replay(folder: &Path) -> io::Result<u64> {
    let mut differences = 0;
    let inputs = read_folder(folder)?;
    for (path, input) in &inputs {
        let verdict = compare(input);
        println!("{} {}", path.display(), refusals(&verdict));
        for text in &verdict.differences {
            println!("DIFFERENCE {}: {text}", path.display());
            differences += 1;
        }
    }
    let texts = read_texts(folder)?;
    for (path, kept) in &texts {
        let (refusal, line) = kept.refused.map_or((0, 0), |refusal| (refusal.number, refusal.places[0]));
        println!("{} {refusal} {line} {}", path.display(), kept.length);
        for text in import_differences(kept) {
            println!("DIFFERENCE {}: {text}", path.display());
            differences += 1;
        }
    }
    println!("outside: {} files, {differences} differences", inputs.len() + texts.len());
    Ok(differences)
}

fn import_differences(kept: &KeptText) -> Vec<String> {
    let KeptText { text, number, out, answer, .. } = kept;
    let call = ImportCall { text, behind: b"", number: *number, out: *out, answer: *answer };
    let imported = compare_import(import_dimacs(), call);
    let mut differences = imported.differences;
    let (predicted, length) = (imported.predicted, imported.file.len());
    if predicted != kept.refused || length != kept.length {
        differences.push(format!("the reference gives {predicted:?}, {length} bytes"));
    }
    differences
}

/// The nine operations' refusals, in order.
fn refusals(verdict: &Verdict) -> String {
    (0..ON_NETWORKS).map(|operation| verdict.refusal(operation).to_string()).collect::<Vec<_>>().join(" ")
}
