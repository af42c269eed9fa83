//! Random inputs: random bytes as file, good files with bytes or records changed, random proofs in the bench table's file.

use crate::corpus::files;
use crate::frame::{provables, records, with_text, Provable};
use crate::guarded::Size;
use crate::vectors::read;
use std::path::Path;

/// splitmix64.
pub struct Random(pub u64);

impl Random {
    pub fn next(&mut self) -> u64 {
        self.0 = self.0.wrapping_add(0x9e37_79b9_7f4a_7c15);
        let mut z = self.0;
        z = (z ^ (z >> 30)).wrapping_mul(0xbf58_476d_1ce4_e5b9);
        z = (z ^ (z >> 27)).wrapping_mul(0x94d0_49bb_1331_11eb);
        z ^ (z >> 31)
    }

    pub fn below(&mut self, bound: usize) -> usize {
        (self.next() % bound.max(1) as u64) as usize
    }

    fn pick<'a, T>(&mut self, list: &'a [T]) -> &'a T {
        &list[self.below(list.len())]
    }

    /// Mostly small, now and then up to the greatest size and above it.
    fn length(&mut self, small: usize, most: usize) -> usize {
        match self.below(128) {
            0..=7 => 0,
            8..=99 => self.below(small),
            100..=126 => self.below(8 * small),
            _ => self.below(most + most / 8),
        }
    }

    pub fn size(&mut self) -> Size {
        Size {
            pool: self.length(64, 65_536),
            stack: self.length(80, 10_240),
            places: self.length(80, 40_960),
            tree: 0,
            output: 0,
        }
    }

    fn bytes(&mut self, count: usize) -> Vec<u8> {
        (0..count).map(|_| self.next() as u8).collect()
    }
}

/// A token of the bench table's labels, with signs now and then.
fn token(random: &mut Random) -> Vec<u8> {
    let labels = ["wp", "wq", "wi", "h1", "h2", "mp", "min", "maj", "th1", "th2", "x", "y", "?", "(", ")", ""];
    let often = ["wp", "wq", "wi", "wp", "wq", "h1", "h2", "mp"];
    let mut out = Vec::new();
    for sign in [":", "="] {
        if random.below(10) == 0 {
            out.extend_from_slice(random.pick(&labels).as_bytes());
            out.extend_from_slice(sign.as_bytes());
        }
    }
    let list = if random.below(8) == 0 { &labels[..] } else { &often[..] };
    out.extend_from_slice(random.pick(list).as_bytes());
    out
}

fn letters(random: &mut Random) -> Vec<u8> {
    let roster = *random.pick(&["( wi )", "( wi ) ", "( mp wi )", "( wi wp )", "( )", "(", "( x )", "( wi ) \t", "( th1 )"]);
    let mut out = roster.as_bytes().to_vec();
    out.push(b' ');
    for _ in 0..random.below(16) {
        let near = b"ABCDEABCDEABCZ";
        out.push(match random.below(16) {
            0..=12 => *random.pick(near),
            13 => b'A' + random.below(26) as u8,
            14 => *random.pick(b"UVWXY? \n"),
            _ => *random.pick(b"a(0)z:=-"),
        });
    }
    out
}

/// A good proof with a token changed, put in, taken out or moved, or with a letter changed.
fn near_good(random: &mut Random) -> Vec<u8> {
    let good = ["wp wq wi wp wq wi wi", "wp wq h1 h2 mp", "wq=wq min=h1 wp=wp maj=h2 mp", "wp wq x:wi x wi", "( wi ) ABCZDC", "( mp ) ABCDE"];
    let mut tokens: Vec<Vec<u8>> = random.pick(&good).split(' ').map(|word| word.as_bytes().to_vec()).collect();
    let (at, other) = (random.below(tokens.len()), random.below(tokens.len()));
    match random.below(6) {
        0 => tokens[at] = token(random),
        1 => tokens.insert(at, token(random)),
        2 => tokens.swap(at, other),
        3 => {
            tokens.remove(at);
        }
        4 => {
            let byte = random.below(tokens[at].len());
            tokens[at][byte] = *random.pick(b"ABCDEZUT?pqhwi12=:");
        }
        _ => {}
    }
    tokens.join(&b' ')
}

/// A random proof's text; with `wild`, bytes that may not stand in one as well.
pub fn proof_text(random: &mut Random, wild: bool) -> Vec<u8> {
    match random.below(if wild { 8 } else { 7 }) {
        0 => (0..random.below(24)).map(|_| 0x21 + random.below(0x5e) as u8).collect(),
        1 | 2 => letters(random),
        3 | 4 => near_good(random),
        7 => {
            let count = random.below(24);
            random.bytes(count)
        }
        _ => {
            let tokens: Vec<Vec<u8>> = (0..random.below(12)).map(|_| token(random)).collect();
            let divider = *random.pick(&[" ", " ", "\n", "\t ", "\r", "\x0c"]);
            tokens.join(divider.as_bytes())
        }
    }
}

/// A good file with a few bytes changed, put in or taken out, or cut short.
fn changed(random: &mut Random, file: &[u8]) -> Vec<u8> {
    let mut out = file.to_vec();
    for _ in 0..1 + random.below(4) {
        let at = random.below(out.len() + 1);
        let byte = *random.pick(&[0, 1, 2, 255, random.0 as u8, (random.0 >> 8) as u8 & 15]);
        match random.below(8) {
            0 => out.insert(at, byte),
            1 if at < out.len() => {
                out.remove(at);
            }
            2 if random.below(4) == 0 => out.truncate(at),
            _ if at < out.len() => out[at] = byte,
            _ => {}
        }
    }
    out
}

/// A good file with whole records taken out, put in twice, moved or cut off.
fn moved(random: &mut Random, file: &[u8]) -> Vec<u8> {
    let mut parts: Vec<&[u8]> = records(file);
    for _ in 0..1 + random.below(3) {
        let (from, to) = (random.below(parts.len()), random.below(parts.len() + 1));
        match random.below(8) {
            _ if parts.is_empty() => {}
            0 | 1 => {
                parts.remove(from);
            }
            2 => parts.insert(to, parts[from]),
            3 => parts.truncate(to),
            _ => {
                let part = parts.remove(from);
                parts.insert(to.min(parts.len()), part);
            }
        }
    }
    parts.concat()
}

/// Good files to begin with: the bench table's, with its claims, and small ones.
pub struct Bases {
    table: Vec<u8>,
    claims: Vec<Provable>,
    small: Vec<Vec<u8>>,
}

/// An input: its kind, the file, the statement asked for.
pub fn input(random: &mut Random, bases: &Bases) -> (&'static str, Vec<u8>, usize) {
    match random.below(10) {
        0 => {
            let count = random.below(200);
            ("random file", random.bytes(count), random.below(4))
        }
        1 | 2 => {
            let ix = random.below(bases.small.len());
            let file = changed(random, &bases.small[ix]);
            ("changed file", file, random.below(24))
        }
        3 => {
            let ix = random.below(bases.small.len());
            let file = moved(random, &bases.small[ix]);
            ("moved records", file, random.below(24))
        }
        _ => {
            let text = proof_text(random, true);
            let claim = random.pick(&bases.claims);
            ("random proof", with_text(&bases.table, claim, &text), claim.statement)
        }
    }
}

pub fn bases(corpus: &Path, vectors: &Path) -> Bases {
    let table = read(&corpus.join("bench-table/row01.frames"));
    let mut small: Vec<Vec<u8>> = files(corpus).iter().map(|path| read(path)).filter(|file| file.len() < 3_000).collect();
    let folder = vectors.join("calls");
    small.extend((0..300).map(|number| folder.join(format!("{number:06}.frames"))).filter(|path| path.exists()).map(|path| read(&path)));
    small.retain(|file| file.len() < 3_000);
    Bases {
        claims: provables(&table),
        table,
        small,
    }
}
