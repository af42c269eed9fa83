//! The records of a frame file that is known to be good, and a proof put in another's place.

use std::ops::Range;

/// A $p: its statement number, its label, where its proof's text stands in the file.
#[derive(Clone, Debug)]
pub struct Provable {
    pub statement: usize,
    pub label: String,
    pub text: Range<usize>,
}

pub fn u16_at(file: &[u8], at: usize) -> usize {
    usize::from(file[at]) + 256 * usize::from(file[at + 1])
}

pub fn u32_at(file: &[u8], at: usize) -> usize {
    u16_at(file, at) + 65_536 * u16_at(file, at + 2)
}

/// The records of a file whose lengths are good; what follows the last is left out.
pub fn records(file: &[u8]) -> Vec<&[u8]> {
    let (mut out, mut at) = (Vec::new(), 0);
    while at + 4 <= file.len() {
        let end = at + 4 + u32_at(file, at);
        if end > file.len() {
            break;
        }
        out.push(&file[at..end]);
        at = end;
    }
    out
}

/// Every $p of a good file.
pub fn provables(file: &[u8]) -> Vec<Provable> {
    let mut out: Vec<Provable> = Vec::new();
    let (mut at, mut statement) = (0, 0);
    while at < file.len() {
        let end = at + 4 + u32_at(file, at);
        let body = at + 6;
        match u16_at(file, at + 4) {
            2..=4 => statement += 1,
            5 => {
                let fixed = 4 * u16_at(file, body) + 4 * u16_at(file, body + 2) + 2 * u16_at(file, body + 4);
                out.push(Provable {
                    statement,
                    label: String::from_utf8_lossy(&file[body + 6 + fixed..end]).into_owned(),
                    text: 0..0,
                });
                statement += 1;
            }
            6 => out.last_mut().expect("a proof follows a $p").text = body..end,
            _ => {}
        }
        at = end;
    }
    out
}

/// The file with another text for this proof; the record's length is set anew.
pub fn with_text(file: &[u8], provable: &Provable, text: &[u8]) -> Vec<u8> {
    let record = provable.text.start - 6;
    let mut out = file[..record].to_vec();
    out.extend_from_slice(&(text.len() as u32 + 2).to_le_bytes());
    out.extend_from_slice(&[6, 0]);
    out.extend_from_slice(text);
    out.extend_from_slice(&file[provable.text.end..]);
    out
}
