//! Tries bindings/bench.rs: document 01's file of th1 and th2 (its path is the argument) with good and short room, a bad file, a
//! statement that is no $p, zero lengths, and long forms with just enough and with less. What is lent stands between guards. Says what
//! differs; the exit status is 1 then.
#![deny(unsafe_code)]

#[allow(unsafe_code, dead_code)]
#[path = "../../bindings/bench.rs"]
mod bench;

use bench::{Answer, Room};

const GUARD: usize = 16;

struct Tried {
    count: usize,
    differ: usize,
}

impl Tried {
    fn same<T: PartialEq + std::fmt::Debug>(&mut self, what: &str, found: T, stated: T) {
        self.count += 1;
        if found != stated {
            self.differ += 1;
            println!("{what}: {found:?}, not {stated:?}");
        }
    }
}

/// Elements that hold something, between guards that hold the same.
struct Held<T> {
    held: Vec<T>,
    length: usize,
    filled: T,
}

impl<T: Copy + PartialEq + Default> Held<T> {
    fn new(length: usize, filled: T) -> Held<T> {
        Held {
            held: vec![filled; length + 2 * GUARD],
            length,
            filled,
        }
    }

    fn lent(&mut self) -> &mut [T] {
        &mut self.held[GUARD..GUARD + self.length]
    }

    /// After these first elements all that is lent is as it was, and so are the guards.
    fn kept(&self, first: &[T]) -> bool {
        let rest = self.held[..GUARD].iter().chain(&self.held[GUARD + first.len()..]);
        first.len() <= self.length && self.held[GUARD..].starts_with(first) && rest.into_iter().all(|item| *item == self.filled)
    }

    /// All that was lent is zero, and the guards are as they were.
    fn cleared(&self) -> bool {
        self.kept(&vec![T::default(); self.length])
    }
}

/// Memory for a call: pool bytes, entries, places.
struct Lent {
    pool: Held<u8>,
    stack: Held<u64>,
    places: Held<u64>,
}

impl Lent {
    fn new(size: [usize; 3]) -> Lent {
        Lent {
            pool: Held::new(size[0], 0x5a),
            stack: Held::new(size[1] * bench::ENTRY_WORDS, u64::MAX),
            places: Held::new(size[2] * bench::PLACE_WORDS, u64::MAX),
        }
    }

    fn room(&mut self) -> Room<'_> {
        Room {
            pool: self.pool.lent(),
            stack: self.stack.lent(),
            places: self.places.lent(),
        }
    }

    fn cleared(&self) -> bool {
        self.pool.cleared() && self.stack.cleared() && self.places.cleared()
    }
}

fn numbers(answer: Answer) -> [u32; 3] {
    [u32::from(answer.number), answer.place, answer.steps]
}

fn one(tried: &mut Tried, file: &[u8], statement: usize, size: [usize; 3], stated: [u32; 3]) {
    let what = format!("statement {statement} with {size:?}");
    let mut lent = Lent::new(size);
    let answer = bench::verify(file, statement, &mut lent.room());
    tried.same(&what, numbers(answer), stated);
    tried.same(&format!("{what}, memory"), lent.cleared(), true);
}

/// A long form, with the greatest room and so many tree entries and output bytes.
fn lengthened(tried: &mut Tried, file: &[u8], statement: usize, size: [usize; 2], stated: [u32; 3], text: &str) {
    let what = format!("the long form of statement {statement} with {size:?}");
    let mut lent = Lent::new(MOST);
    let (mut tree, mut output) = (Held::new(size[0], u64::MAX), Held::new(size[1], 0x7e));
    let answer = bench::long_form(file, statement, &mut lent.room(), tree.lent(), output.lent());
    tried.same(&what, numbers(answer), stated);
    tried.same(&format!("{what}, memory"), lent.cleared() && tree.cleared(), true);
    tried.same(&format!("{what}, output"), output.kept(text.as_bytes()), true);
}

fn all(file: &[u8], answers: &mut [u64]) -> Result<usize, Answer> {
    bench::verify_all(file, answers, &mut Lent::new(MOST).room())
}

fn answer(number: u8, place: u32, steps: u32) -> Answer {
    Answer { number, place, steps }
}

const MOST: [usize; 3] = [bench::POOL_BYTES, bench::STACK_ENTRIES, bench::PLACES];

fn single(tried: &mut Tried, file: &[u8]) {
    one(tried, file, 6, MOST, [0, 13, 5]);
    one(tried, file, 9, MOST, [0, 14, 5]);
    one(tried, file, 6, [24, 2, 4], [0, 13, 5]);
    one(tried, file, 6, [23, 2, 4], [43, 12, 4]);
    one(tried, file, 6, [24, 1, 4], [45, 8, 1]);
    one(tried, file, 6, [24, 2, 3], [46, 10, 3]);
    one(tried, file, 6, [0, 0, 0], [43, 0, 0]);
    one(tried, file, 6, [70_000, 2_000, 5_000], [0, 13, 5]);
    one(tried, file, 5, MOST, [8, 0, 0]);
    one(tried, file, usize::MAX, [0, 0, 0], [8, 0, 0]);
    one(tried, &file[..file.len() - 1], 6, MOST, [1, 355, 0]);
    one(tried, &[], 0, [0, 0, 0], [8, 0, 0]);
}

fn long_forms(tried: &mut Tried, file: &[u8]) {
    let first = "wp wq wi wp wq wi wi";
    lengthened(tried, file, 6, [bench::TREE_ENTRIES, bench::LONG_BYTES], [0, 20, 5], first);
    lengthened(tried, file, 6, [200_000, 70_000], [0, 20, 5], first);
    lengthened(tried, file, 6, [9, 20], [0, 20, 5], first);
    lengthened(tried, file, 6, [8, 20], [60, 13, 5], "");
    lengthened(tried, file, 6, [9, 19], [61, 13, 5], "");
    lengthened(tried, file, 6, [8, 19], [60, 13, 5], "");
    lengthened(tried, file, 6, [0, 0], [60, 13, 5], "");
    lengthened(tried, file, 9, [9, 14], [0, 14, 5], "wp wq h1 h2 mp");
    lengthened(tried, file, 5, [9, 20], [8, 0, 0], "");
    lengthened(tried, &file[..file.len() - 1], 6, [9, 20], [1, 355, 0], "");
    lengthened(tried, &[], 0, [0, 0], [8, 0, 0], "");
}

fn whole(tried: &mut Tried, file: &[u8]) {
    let mut answers = [77; 3];
    tried.same("all", all(file, &mut answers), Ok(2));
    tried.same("all, th1", Answer::of(answers[0]), answer(0, 13, 5));
    tried.same("all, th2", Answer::of(answers[1]), answer(0, 14, 5));
    tried.same("all, past the last", answers[2], 77);
    tried.same("no answer lent", all(file, &mut []), Ok(2));
    tried.same("an empty file", all(&[], &mut []), Ok(0));
    tried.same("cut short", all(&file[..3], &mut answers), Err(answer(1, 0, 0)));
    tried.same("a name", answer(43, 0, 0).name(), "PoolFull");
    tried.same("the last name", answer(61, 0, 0).name(), "LongFull");
}

fn main() {
    let path = std::env::args().nth(1).expect("usage: bindings FILE");
    let file = std::fs::read(path).expect("the file can be read");
    let mut tried = Tried { count: 0, differ: 0 };
    single(&mut tried, &file);
    long_forms(&mut tried, &file);
    whole(&mut tried, &file);
    println!("Rust: {} tried, {} differ", tried.count, tried.differ);
    std::process::exit(i32::from(tried.differ > 0));
}
