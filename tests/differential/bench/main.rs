//! Compares the calls of the bench with the answers of metamath-rs 0.3.9 and with long lists (see ../bench.sh).
//!   main ORACLE-PROGRAM CORPUS VECTORS COUNT WORK OUT
//! CORPUS is the oracle's corpus, VECTORS the folder of vectors, COUNT the number of random inputs, WORK a folder that may be written
//! to, OUT where files of disagreements are saved. Below 1,000,000 random inputs, mutants are fewer in proportion, but a tenth at least.

#[allow(dead_code)]
#[path = "../../../bindings/bench.rs"]
mod bench;
mod corpus;
mod doubling;
mod frame;
mod guarded;
mod inputs;
mod judge;
mod known;
mod long;
mod mutants;
mod oracle;
mod random;
mod slice;
mod tally;
mod vectors;

use std::path::PathBuf;

const WHOLE: usize = 1_000_000;

fn main() {
    let words: Vec<String> = std::env::args().skip(1).collect();
    let [program, corpus, vectors, count, work, out] = &words[..] else {
        eprintln!("usage: main ORACLE-PROGRAM CORPUS VECTORS COUNT WORK OUT");
        std::process::exit(2);
    };
    let oracle = oracle::Oracle { program: program.into() };
    let [corpus, vectors, work] = [corpus, vectors, work].map(PathBuf::from);
    let count: usize = count.parse().expect("COUNT is a number");
    let mut tally = tally::Tally::new(out.into());
    let mut lent = guarded::Lent::new();
    let tenths = (10 * count.min(WHOLE)).div_ceil(WHOLE).max(1);
    corpus::run(&mut tally, &mut lent, &oracle, &corpus);
    long::corpus(&mut tally, &mut lent, &oracle, &corpus, &work);
    vectors::run(&mut tally, &mut lent, &vectors);
    doubling::run(&mut tally, &mut lent);
    let fourth = mutants::run(&mut tally, &mut lent, &oracle, &corpus, &work, tenths);
    long::mutants(&mut tally, &mut lent, &oracle, &fourth, &work);
    mutants::random_proofs(&mut tally, &mut lent, &oracle, &work, 10 * tenths);
    random::run(&mut tally, &mut lent, &oracle, (&corpus, &vectors, &work), count);
    println!("{} calls; after each one the lent memory was looked through, and the guards", lent.calls);
    println!("agreements {}, disagreements {}", tally.agreements, tally.disagreements);
    std::process::exit(i32::from(tally.disagreements > 0));
}
