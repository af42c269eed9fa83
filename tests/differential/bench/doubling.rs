//! Long forms at the limits: proofs of few letters whose derivations double at each step answer 61, in time in proportion to the letters
//! (at most four times that); a text of just 65,536 bytes is written, one byte more is 61; the most steps, with the most entries of the tree.

use crate::bench::{self, Answer, Room, LONG_BYTES, TREE_ENTRIES};
use crate::frame::{provables, Provable};
use crate::guarded::{Lent, Size};
use crate::judge::show;
use crate::long::{back, entries, Came};
use crate::tally::{Case, Tally};
use std::time::Instant;

/// A proof's letters of a number, counting from 0: `UA` is 20.
fn letters(place: usize) -> Vec<u8> {
    let mut out = vec![b'A' + (place % 20) as u8];
    let mut rest = place / 20;
    while rest > 0 {
        out.insert(0, b'U' + ((rest - 1) % 5) as u8);
        rest = (rest - 1) / 5;
    }
    out
}

fn record(kind: u8, parts: &[&[u8]]) -> Vec<u8> {
    let body = parts.concat();
    let mut out = (body.len() as u32 + 2).to_le_bytes().to_vec();
    out.extend_from_slice(&[kind, 0]);
    out.extend(body);
    out
}

/// A file in which `dup`, of this label, concludes `|- T` from `|- T` and `|- T`; `th`, statement 4, is `|- T` from `h`, `|- T` as well. Its
/// proof's places: 0 is `h`, 1 is `dup`, from 2 on what is saved.
fn file(dup: &str, proof: &[u8]) -> Vec<u8> {
    let essential = |end: u8, label: &str| record(3, &[&[end, 0, 0, 0, 2, 0, 0, 0, 1, 0], label.as_bytes()]);
    [
        record(1, &[&[0], b"|-"]),
        record(1, &[&[0], b"T"]),
        essential(3, "e1"),
        essential(3, "e2"),
        record(4, &[&[2, 0, 0, 0, 2, 0], &[0, 0, 0, 0, 1, 0, 0, 0], &[0, 0, 1, 0], dup.as_bytes()]),
        essential(5, "h"),
        record(5, &[&[1, 0, 0, 0, 2, 0], &[3, 0, 0, 0], &[0, 0, 1, 0], b"th"]),
        record(6, &[proof]),
    ]
    .concat()
}

/// A proof of at most so many letters: each step of `dup` is saved and taken twice by the next, until there are no more places; from then
/// on the last place is taken. Gives its text, letters and steps.
fn doubling(most: usize) -> (Vec<u8>, usize, u32) {
    let (mut out, mut place, mut steps) = (b"AAB".to_vec(), 1, 3);
    loop {
        let mut more = Vec::new();
        if place < bench::PLACES - 1 {
            more.push(b'Z');
            place += 1;
        }
        more.extend(letters(place));
        more.push(b'B');
        if out.len() + more.len() > most {
            let text = [b"( dup ) ", &out[..]].concat();
            return (text, out.len(), steps);
        }
        out.extend(more);
        steps += 2;
    }
}

/// A proof in which `h` is used so often, each time with what there is so far.
fn adding(dup: &str, times: usize) -> Vec<u8> {
    let mut out = format!("( {dup} ) A").into_bytes();
    out.extend(b"AB".repeat(times - 1));
    out
}

/// The least time of seven calls in microseconds, with the most of everything lent; the answer is the last one's.
fn timed(file: &[u8]) -> (f64, Answer) {
    let (mut pool, mut stack, mut places) = (vec![0; bench::POOL_BYTES], vec![0; bench::STACK_WORDS], vec![0; bench::PLACES_WORDS]);
    let (mut tree, mut output) = (vec![0; TREE_ENTRIES], vec![0; LONG_BYTES]);
    let mut room = Room {
        pool: &mut pool,
        stack: &mut stack,
        places: &mut places,
    };
    let mut least = f64::INFINITY;
    let mut answer = Answer::of(0);
    for _ in 0..7 {
        let start = Instant::now();
        answer = bench::long_form(file, 4, &mut room, &mut tree, &mut output);
        least = least.min(start.elapsed().as_secs_f64() * 1e6);
    }
    (least, answer)
}

/// What is wrong with a long form of `th`: with this much lent, its answer is this.
fn answered(tally: &mut Tally, lent: &mut Lent, file: &[u8], tree: usize, output: usize, due: [u32; 3]) -> Vec<u8> {
    let size = Size::greatest().with(tree, output);
    let due = Answer {
        number: due[0] as u8,
        place: due[1],
        steps: due[2],
    };
    let case = Case {
        name: "doubling",
        file,
        statement: Some(4),
        size,
    };
    let found = lent.long_form(file, 4, size, 0x2d);
    let wrong = match &found {
        Err(fault) => Some(fault.clone()),
        Ok((answer, _)) => (*answer != due).then(|| format!("answered {} where {} is due", show(*answer), show(due))),
    };
    tally.count(wrong, &case);
    found.map_or(Vec::new(), |(_, text)| text)
}

/// A doubling proof of at most so many letters. Gives its letters and microseconds.
fn double(tally: &mut Tally, lent: &mut Lent, most: usize) -> (usize, f64) {
    let (text, letters, steps) = doubling(most);
    let file = file("dup", &text);
    let (length, tree) = (text.len() as u32, entries(steps));
    answered(tally, lent, &file, tree, 100_000, [61, length, steps]);
    answered(tally, lent, &file, tree, 1_000, [61, length, steps]);
    answered(tally, lent, &file, tree - 1, LONG_BYTES, [60, length, steps]);
    (letters, timed(&file).0)
}

/// Texts of 65,536 and 65,537 bytes, and the most steps.
fn limits(tally: &mut Tally, lent: &mut Lent) {
    let (text, steps) = (adding("du", 13_108), 2 * 13_108 - 1);
    let whole = file("du", &text);
    let (length, tree) = (text.len() as u32, entries(steps));
    answered(tally, lent, &whole, tree, LONG_BYTES - 1, [61, length, steps]);
    answered(tally, lent, &whole, tree, LONG_BYTES, [0, 65_536, steps]);
    let long = answered(tally, lent, &whole, TREE_ENTRIES, 2 * LONG_BYTES, [0, 65_536, steps]);
    let claim: Provable = provables(&whole).remove(0);
    let came = back(lent, &whole, &claim, &long);
    let case = Case {
        name: "65,536 bytes",
        file: &whole,
        statement: Some(4),
        size: Size::greatest(),
    };
    tally.count(came.map_or_else(Some, |came| (came != Came::Back).then(|| "it does not come back".into())), &case);
    let text = adding("d", 16_385);
    answered(tally, lent, &file("d", &text), TREE_ENTRIES, 2 * LONG_BYTES, [61, text.len() as u32, 2 * 16_385 - 1]);
    let (text, steps) = (adding("d", 32_765), 2 * 32_765 - 1);
    let most = file("d", &text);
    answered(tally, lent, &most, entries(steps), LONG_BYTES, [61, text.len() as u32, steps]);
    answered(tally, lent, &most, entries(steps) - 1, LONG_BYTES, [60, text.len() as u32, steps]);
    answered(tally, lent, &most, 1_000_000, LONG_BYTES, [61, text.len() as u32, steps]);
}

pub fn run(tally: &mut Tally, lent: &mut Lent) {
    let sizes = [500, 1_000, 2_000, 4_000, 8_000, 16_000, 32_000, 65_000];
    let times: Vec<(usize, f64)> = sizes.iter().map(|most| double(tally, lent, *most)).collect();
    for (letters, time) in &times {
        println!("doubling: {letters} letters, {time:.0} microseconds");
    }
    let (some, most) = (times[4], times[7]);
    let case = Case {
        name: "doubling",
        file: &[],
        statement: Some(4),
        size: Size::greatest().with(TREE_ENTRIES, LONG_BYTES),
    };
    let slow = most.1 / some.1 > 4.0 * most.0 as f64 / some.0 as f64;
    tally.count(slow.then(|| format!("{most:?} beside {some:?} letters and microseconds")), &case);
    limits(tally, lent);
    tally.part("long forms at the limits", "doubling proofs, texts of 65,536 and 65,537 bytes, the most steps");
}
