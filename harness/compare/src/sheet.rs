//! Sheets, from the specification ('The sheet', and refusals 6, 7 and 8) alone.
use crate::doors::{refuse, success, Answer};
use crate::lists::{push_row, Row};

pub const NAMES: &[u8] = b"what kind text\n";

/// A sheet of rows.
pub fn write(rows: &[Row]) -> Vec<u8> {
    let mut sheet = NAMES.to_vec();
    for row in rows {
        sheet.push(b"LTR"[row.what as usize]);
        sheet.extend(format!(" {} ", row.kind).bytes());
        for &b in &row.bytes {
            match b {
                b'\n' => sheet.extend(b"\\n"),
                b'\\' => sheet.extend(b"\\\\"),
                _ => sheet.push(b),
            }
        }
        sheet.push(b'\n');
    }
    sheet
}

/// What reading a sheet into so much space answers, and on success the bytes that stand first in each slice.
pub fn read(sheet: &[u8], row_space: usize, text_space: usize) -> (Answer, Vec<u8>, Vec<u8>) {
    let (mut rows, mut text) = (Vec::new(), Vec::new());
    let answer = read_into(sheet, [row_space, text_space], &mut rows, &mut text);
    if answer.refusal != 0 {
        rows.clear();
        text.clear();
    }
    (answer, rows, text)
}

/// The same, into an empty `Vec` each.
pub fn read_into(sheet: &[u8], spaces: [usize; 2], rows: &mut Vec<u8>, text: &mut Vec<u8>) -> Answer {
    let Some(lines) = sheet.strip_prefix(NAMES) else {
        return refuse(6, 0);
    };
    for (number, line) in lines.split_inclusive(|&b| b == b'\n').enumerate() {
        let start = text.len();
        let Some((what, kind)) = read_line(line, text) else {
            return refuse(7, number + 1);
        };
        if rows.len() + 16 > spaces[0] || text.len() > spaces[1] || text.len() > u32::MAX as usize {
            return refuse(8, number + 1);
        }
        push_row(rows, [what, kind, start as u32, text.len() as u32]);
    }
    success(rows.len() as u64 / 16, text.len() as u64, 0)
}

/// A line's what and kind, with its text put behind the others; none where it breaks its form.
fn read_line(line: &[u8], text: &mut Vec<u8>) -> Option<(u32, u32)> {
    let line = line.strip_suffix(b"\n")?;
    let mut parts = line.splitn(3, |&b| b == b' ');
    let what = match parts.next()? {
        b"L" => 0,
        b"T" => 1,
        b"R" => 2,
        _ => return None,
    };
    let kind = decimal(parts.next()?)?;
    unescape(parts.next()?, text)?;
    Some((what, kind))
}

/// A kind in decimal without leading zeros.
fn decimal(digits: &[u8]) -> Option<u32> {
    let kind = match digits {
        [d] if d.is_ascii_digit() => (d - b'0') as u32,
        [c, d] if c.is_ascii_digit() && *c != b'0' && d.is_ascii_digit() => ((c - b'0') * 10 + (d - b'0')) as u32,
        _ => return None,
    };
    (kind <= 34).then_some(kind)
}

fn unescape(written: &[u8], text: &mut Vec<u8>) -> Option<()> {
    let mut bytes = written.iter();
    while let Some(&b) = bytes.next() {
        text.push(match b {
            b'\\' => match bytes.next()? {
                b'n' => b'\n',
                b'\\' => b'\\',
                _ => return None,
            },
            _ => b,
        });
    }
    Some(())
}
