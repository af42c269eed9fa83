//! A smaller file for one $p of a good file: all symbols, and of the statements only those that its frame and its proof's text name, with
//! their hypotheses, numbered anew. Other $p among them have an empty proof. The file check is fast then, and the answer is the same.

use crate::frame::{provables, records, u16_at, u32_at, Provable};
use std::collections::HashSet;

const FOREVER: u32 = u32::MAX;

fn label(record: &[u8]) -> &[u8] {
    let count = |at: usize| u16_at(record, 6 + at);
    match u16_at(record, 4) {
        2 => &record[14..],
        3 => &record[12 + 2 * count(4)..],
        _ => &record[12 + 4 * count(0) + 4 * count(2) + 2 * count(4)..],
    }
}

/// The statement numbers that an assertion lists.
fn listed(record: &[u8]) -> Vec<usize> {
    match u16_at(record, 4) {
        4 | 5 => (0..u16_at(record, 6)).map(|ix| u32_at(record, 12 + 4 * ix)).collect(),
        _ => Vec::new(),
    }
}

/// Which statements are kept: this one, those below it that the text names, and what they list.
fn kept(statements: &[&[u8]], own: usize, text: &[u8]) -> Vec<bool> {
    let named: HashSet<&[u8]> = text.split(|byte| b" \t\r\n\x0c:=".contains(byte)).collect();
    let mut out = vec![false; statements.len()];
    out[own] = true;
    for ix in (0..=own).rev() {
        out[ix] |= named.contains(label(statements[ix]));
        if out[ix] {
            listed(statements[ix]).into_iter().for_each(|hypothesis| out[hypothesis] = true);
        }
    }
    out
}

/// The record with statement numbers set anew; `below` tells how many are kept below each number.
fn renumbered(record: &[u8], below: &[u32]) -> Vec<u8> {
    let mut out = record.to_vec();
    let set = |out: &mut Vec<u8>, at: usize, number: u32| out[at..at + 4].copy_from_slice(&number.to_le_bytes());
    let end = u32_at(record, 6);
    match u16_at(record, 4) {
        2 | 3 if end != FOREVER as usize => set(&mut out, 6, below[end.min(below.len() - 1)]),
        4 | 5 => listed(record).iter().enumerate().for_each(|(ix, number)| set(&mut out, 12 + 4 * ix, below[*number])),
        _ => {}
    }
    out
}

/// The smaller file, and the $p in it.
pub fn slice(file: &[u8], provable: &Provable) -> (Vec<u8>, Provable) {
    let (own, text) = (provable.statement, &file[provable.text.clone()]);
    let parts = records(file);
    let statements: Vec<&[u8]> = parts.iter().copied().filter(|record| (2..=5).contains(&u16_at(record, 4))).collect();
    let kept = kept(&statements, own, text);
    let mut below = vec![0];
    kept.iter().for_each(|keep| below.push(below[below.len() - 1] + u32::from(*keep)));
    let (mut out, mut number) = (Vec::new(), 0);
    for record in parts {
        match u16_at(record, 4) {
            1 => out.extend_from_slice(record),
            6 if number == own + 1 => out.extend_from_slice(record),
            6 if kept[number - 1] => out.extend_from_slice(&[2, 0, 0, 0, 6, 0]),
            6 => {}
            _ => {
                if kept[number] {
                    out.extend(renumbered(record, &below));
                }
                number += 1;
            }
        }
    }
    let found = provables(&out).into_iter().find(|other| other.label == provable.label).expect("the $p is kept");
    (out, found)
}
