//! The calls with every buffer between guards. What is lent holds something before a call; after it the buffers are looked through: all
//! lent memory is zero, the guards, the file, the unused answers and what no long form was written to are as they were.

use crate::bench::{self, Answer, Room};

const GUARD: usize = 16;
const GUARD_BYTE: u8 = 0xc3;
const GUARD_WORD: u64 = 0xc3c3_c3c3_c3c3_c3c3;
/// What stands in `answers` before a call; no answer looks like it.
const NO_ANSWER: u64 = 0xffff_ffff_ffff_ffff;

/// What is lent: bytes of pool, words of stack and of places; for a long form entries of the tree and bytes of output as well.
#[derive(Clone, Copy, Debug)]
pub struct Size {
    pub pool: usize,
    pub stack: usize,
    pub places: usize,
    pub tree: usize,
    pub output: usize,
}

impl Size {
    /// So many bytes, entries and places.
    pub fn of(pool: usize, entries: usize, places: usize) -> Size {
        Size {
            pool,
            stack: entries * bench::ENTRY_WORDS,
            places: places * bench::PLACE_WORDS,
            tree: 0,
            output: 0,
        }
    }

    /// The same, and for a long form so many entries of the tree and bytes of output.
    pub fn with(self, tree: usize, output: usize) -> Size {
        Size { tree, output, ..self }
    }

    pub fn greatest() -> Size {
        Size::of(bench::POOL_BYTES, bench::STACK_ENTRIES, bench::PLACES)
    }
}

/// What a call for all proofs answered.
#[derive(Clone, PartialEq, Debug)]
pub enum All {
    Refused(Answer),
    /// How many $p there are, and the answers that were written.
    Checked(usize, Vec<Answer>),
}

/// What an element holds before a call.
trait Filled {
    fn filled(seed: u8, ix: usize) -> Self;
}

impl Filled for u8 {
    fn filled(seed: u8, ix: usize) -> u8 {
        (ix as u8).wrapping_mul(37).wrapping_add(seed)
    }
}

impl Filled for u64 {
    fn filled(seed: u8, ix: usize) -> u64 {
        (ix as u64 + 1).wrapping_mul(0x9e37_79b9_7f4a_7c15).rotate_left(u32::from(seed))
    }
}

/// A buffer with guards on both sides.
struct Buffer<T> {
    held: Vec<T>,
    length: usize,
    guard: T,
}

impl<T: Copy + PartialEq + Default + Filled> Buffer<T> {
    fn new(guard: T) -> Buffer<T> {
        Buffer {
            held: Vec::new(),
            length: 0,
            guard,
        }
    }

    /// Sets the guards anew around `length` elements, which all become `value`.
    fn set(&mut self, length: usize, value: T) -> &mut [T] {
        if self.held.len() < length + 2 * GUARD {
            self.held.resize(length + 2 * GUARD, self.guard);
        }
        self.length = length;
        self.held[..GUARD].fill(self.guard);
        self.held[GUARD..GUARD + length].fill(value);
        self.held[GUARD + length..length + 2 * GUARD].fill(self.guard);
        &mut self.held[GUARD..GUARD + length]
    }

    /// The same, filled from a seed.
    fn fill(&mut self, length: usize, seed: u8) {
        for (ix, item) in self.set(length, T::default()).iter_mut().enumerate() {
            *item = T::filled(seed, ix);
        }
    }

    fn lent(&mut self) -> &mut [T] {
        &mut self.held[GUARD..GUARD + self.length]
    }

    fn guarded(&self) -> bool {
        let after = GUARD + self.length;
        let all = |part: &[T]| part.iter().all(|item| *item == self.guard);
        all(&self.held[..GUARD]) && all(&self.held[after..after + GUARD])
    }

    fn zero(&self) -> bool {
        let zero = T::default();
        self.held[GUARD..GUARD + self.length].iter().all(|item| *item == zero)
    }

    /// From this element on all is as `fill` left it.
    fn kept(&self, from: usize, seed: u8) -> bool {
        let lent = &self.held[GUARD..GUARD + self.length];
        (from..self.length).all(|ix| lent[ix] == T::filled(seed, ix))
    }

    /// What is wrong with a lent working buffer after a call.
    fn fault(&self, name: &str) -> Option<String> {
        if !self.guarded() {
            return Some(format!("a guard beside {name} was changed"));
        }
        (!self.zero()).then(|| format!("{name} is not all zero"))
    }
}

/// The buffers of all calls.
pub struct Lent {
    file: Buffer<u8>,
    pool: Buffer<u8>,
    stack: Buffer<u64>,
    places: Buffer<u64>,
    tree: Buffer<u64>,
    output: Buffer<u8>,
    answers: Buffer<u64>,
    /// How many calls were made.
    pub calls: u64,
}

impl Lent {
    pub fn new() -> Lent {
        Lent {
            file: Buffer::new(GUARD_BYTE),
            pool: Buffer::new(GUARD_BYTE),
            stack: Buffer::new(GUARD_WORD),
            places: Buffer::new(GUARD_WORD),
            tree: Buffer::new(GUARD_WORD),
            output: Buffer::new(GUARD_BYTE),
            answers: Buffer::new(GUARD_WORD),
            calls: 0,
        }
    }

    /// Makes the buffers ready; what is lent is filled from the seed `before`.
    fn ready(&mut self, file: &[u8], size: Size, before: u8) {
        self.file.set(file.len(), 0).copy_from_slice(file);
        self.pool.fill(size.pool, before);
        self.stack.fill(size.stack, before);
        self.places.fill(size.places, before);
        self.calls += 1;
    }

    fn fault(&mut self, file: &[u8]) -> Option<String> {
        if !self.file.guarded() || self.file.lent() != file {
            return Some("the file was changed".into());
        }
        let pool = self.pool.fault("the pool");
        let stack = pool.or_else(|| self.stack.fault("the stack"));
        stack.or_else(|| self.places.fault("the memory for places"))
    }

    /// The answer for one statement; a fault of the buffers instead, if there is one.
    pub fn verify(&mut self, file: &[u8], statement: usize, size: Size, before: u8) -> Result<Answer, String> {
        self.ready(file, size, before);
        let mut room = Room {
            pool: self.pool.lent(),
            stack: self.stack.lent(),
            places: self.places.lent(),
        };
        let answer = bench::verify(self.file.lent(), statement, &mut room);
        self.fault(file).map_or(Ok(answer), Err)
    }

    /// The answer for the long form of one statement's proof, and what was written; a fault of the buffers instead, if there is one.
    pub fn long_form(&mut self, file: &[u8], statement: usize, size: Size, before: u8) -> Result<(Answer, Vec<u8>), String> {
        self.ready(file, size, before);
        self.tree.fill(size.tree, before);
        self.output.fill(size.output, before);
        let mut room = Room {
            pool: self.pool.lent(),
            stack: self.stack.lent(),
            places: self.places.lent(),
        };
        let answer = bench::long_form(self.file.lent(), statement, &mut room, self.tree.lent(), self.output.lent());
        if let Some(fault) = self.fault(file).or_else(|| self.tree.fault("the tree")) {
            return Err(fault);
        }
        if !self.output.guarded() {
            return Err("a guard beside the output was changed".into());
        }
        let written = if answer.number == 0 { answer.place as usize } else { 0 };
        if written > size.output || !self.output.kept(written, before) {
            return Err(format!("{answer:?}, and the output was changed after {written} bytes"));
        }
        Ok((answer, self.output.lent()[..written].to_vec()))
    }

    /// The answers for all $p, with so many answers lent.
    pub fn verify_all(&mut self, file: &[u8], answers: usize, size: Size, before: u8) -> Result<All, String> {
        self.ready(file, size, before);
        self.answers.set(answers, NO_ANSWER);
        let mut room = Room {
            pool: self.pool.lent(),
            stack: self.stack.lent(),
            places: self.places.lent(),
        };
        let whole = bench::verify_all(self.file.lent(), self.answers.lent(), &mut room);
        if let Some(fault) = self.fault(file) {
            return Err(fault);
        }
        if !self.answers.guarded() {
            return Err("a guard beside the answers was changed".into());
        }
        let written = whole.map_or(0, |count| count.min(answers));
        let lent = self.answers.lent();
        if lent[written..].iter().any(|word| *word != NO_ANSWER) {
            return Err("an answer past the last was changed".into());
        }
        if lent[..written].contains(&NO_ANSWER) {
            return Err("an answer was not written".into());
        }
        Ok(match whole {
            Err(refusal) => All::Refused(refusal),
            Ok(count) => All::Checked(count, lent[..written].iter().map(|word| Answer::of(*word)).collect()),
        })
    }
}
