//! Document 02's wish 3: a road file in the text form of the 9th DIMACS challenge, read into a network file.
//! First the whole text is held to its form (35), then to the limits (36), and then it is packed.

use super::network::{pack, Header, Tables, MOST_ARCS, MOST_NODES, MOST_PERIOD};
use super::{refuse, Refusal};

/// A line of one of the three forms, its numbers as they stand there.
pub enum Line {
    Remark,
    Sizes { nodes: u32, arcs: u32 },
    Arc { tail: u32, head: u32, weight: u32 },
}

/// "(35 .., 36 ..; 31 after both.)"
pub fn import(text: &[u8], number: u32, out_length: usize) -> Result<Vec<u8>, Refusal> {
    let lines = judge_forms(&lines_of(text))?;
    judge_values(&lines)?;
    let (header, tables) = network_of(&lines, number);
    pack(&header, &tables, out_length)
}

/// "A line ends at a line feed or at the end of input; a last line feed begins no further line."
pub fn lines_of(text: &[u8]) -> Vec<&[u8]> {
    let mut lines: Vec<&[u8]> = text.split(|&byte| byte == b'\n').collect();
    if lines.last().is_some_and(|line| line.is_empty()) {
        lines.pop();
    }
    lines
}

/// "Any line that begins with `c` is a remark"; the others are fields one space apart.
fn read_line(line: &[u8]) -> Option<Line> {
    if line.first() == Some(&b'c') {
        return Some(Line::Remark);
    }
    let fields: Vec<&[u8]> = line.split(|&byte| byte == b' ').collect();
    match fields[..] {
        [b"p", b"sp", nodes, arcs] => {
            let (nodes, arcs) = (read_number(nodes)?, read_number(arcs)?);
            Some(Line::Sizes { nodes, arcs })
        }
        [b"a", tail, head, weight] => {
            let (tail, head, weight) = (read_number(tail)?, read_number(head)?, read_number(weight)?);
            Some(Line::Arc { tail, head, weight })
        }
        _ => None,
    }
}

/// "numbers of at most nine digits, leading zeros counted".
fn read_number(field: &[u8]) -> Option<u32> {
    let is_number = (1..=9).contains(&field.len()) && field.iter().all(u8::is_ascii_digit);
    is_number.then(|| field.iter().fold(0, |number, digit| 10 * number + u32::from(digit - b'0')))
}

/// "35 a line of no such form, out of order, or one arc too many, giving the line, or no `p` line or too few
/// arcs, giving the line count". Lines are counted from 1, and the lowest wins.
fn judge_forms(lines: &[&[u8]]) -> Result<Vec<Line>, Refusal> {
    let mut read = Vec::new();
    let mut arcs_named = None;
    let mut arcs_met = 0;
    for (number, line) in (1..).zip(lines) {
        let line = read_line(line);
        let holds = match line {
            None => false,
            Some(Line::Remark) => true,
            Some(Line::Sizes { arcs, .. }) => arcs_named.replace(arcs).is_none(),
            Some(Line::Arc { .. }) => {
                arcs_met += 1;
                arcs_named.is_some_and(|named| arcs_met <= named)
            }
        };
        match line {
            Some(line) if holds => read.push(line),
            _ => return refuse(35, number),
        }
    }
    if arcs_named != Some(arcs_met) {
        return refuse(35, lines.len());
    }
    Ok(read)
}

/// "36 an arc with equal ends or an end that is no node, a weight outside 1 to 2,880 or sizes outside the
/// limits, giving the line". The `p` line stands before all arcs by now.
fn judge_values(lines: &[Line]) -> Result<(), Refusal> {
    let mut nodes_named = 0;
    for (number, line) in (1..).zip(lines) {
        let holds = match *line {
            Line::Remark => true,
            Line::Sizes { nodes, arcs } => {
                nodes_named = nodes;
                (1..=MOST_NODES).contains(&nodes) && arcs <= MOST_ARCS
            }
            Line::Arc { tail, head, weight } => {
                let is_node = |end| 1 <= end && end <= nodes_named;
                tail != head && is_node(tail) && is_node(head) && (1..=MOST_PERIOD).contains(&weight)
            }
        };
        if !holds {
            return refuse(36, number);
        }
    }
    Ok(())
}

/// "P 2,880, K 1, every weight a constant travel in ticks, every place in cell 0, roads in file order", nodes
/// lowered by one. "The caller gives the network number."
fn network_of(lines: &[Line], number: u32) -> (Header, Tables) {
    let mut tables = Tables::default();
    for line in lines {
        match *line {
            Line::Remark => {}
            Line::Sizes { nodes, .. } => tables.cells = vec![0; nodes as usize],
            Line::Arc { tail, head, weight } => {
                tables.from.push((tail - 1) as u16);
                tables.to.push((head - 1) as u16);
                tables.counts.push(1);
                tables.ticks.push(0);
                tables.travels.push(weight as u16);
            }
        }
    }
    tables.open_all_day(MOST_PERIOD as u16);
    let (nodes, arcs) = (tables.cells.len() as u32, tables.from.len() as u32);
    (Header { number, period: MOST_PERIOD, nodes, arcs, cells: 1, points: arcs, hours: 0 }, tables)
}
