//! Counting agreements and disagreements, part by part, and saving what is needed to see a disagreement.

use crate::guarded::Size;
use std::path::PathBuf;

/// So many disagreements are printed and saved; the rest are counted.
const SHOWN: u64 = 20;

pub struct Tally {
    pub agreements: u64,
    pub disagreements: u64,
    /// Known differences, and proofs with marks turned: neither agreements nor disagreements.
    pub known: u64,
    pub apart: u64,
    /// Of those apart, how many have the Rust's number and steps.
    pub apart_alike: u64,
    folder: PathBuf,
    mark: [u64; 5],
}

impl Tally {
    pub fn new(folder: PathBuf) -> Tally {
        Tally {
            agreements: 0,
            disagreements: 0,
            known: 0,
            apart: 0,
            apart_alike: 0,
            folder,
            mark: [0; 5],
        }
    }

    fn counts(&self) -> [u64; 5] {
        [self.agreements, self.disagreements, self.known, self.apart, self.apart_alike]
    }

    /// The line of a part: what was counted since the last one.
    pub fn part(&mut self, name: &str, more: &str) {
        let now = self.counts();
        let since: Vec<u64> = now.iter().zip(self.mark).map(|(new, old)| new - old).collect();
        self.mark = now;
        let mut line = format!("{name}: agreements {}, disagreements {}", since[0], since[1]);
        if since[2] > 0 {
            line += &format!(", known differences {}", since[2]);
        }
        if since[3] > 0 {
            line += &format!(", apart {} ({} alike)", since[3], since[4]);
        }
        if !more.is_empty() {
            line += &format!(" ({more})");
        }
        println!("{line}");
    }

    /// One comparison: nothing is wrong, or this is.
    pub fn count(&mut self, wrong: Option<String>, case: &Case) {
        match wrong {
            None => self.agreements += 1,
            Some(wrong) => self.disagree(&wrong, case),
        }
    }

    pub fn disagree(&mut self, wrong: &str, case: &Case) {
        self.disagreements += 1;
        if self.disagreements > SHOWN {
            return;
        }
        let path = self.folder.join(format!("disagreement-{:02}.frames", self.disagreements));
        let saved = std::fs::create_dir_all(&self.folder).and_then(|()| std::fs::write(&path, case.file));
        let place = saved.map_or_else(|why| format!("not saved: {why}"), |()| path.display().to_string());
        let statement = case.statement.map_or("all".into(), |number| format!("statement {number}"));
        println!("disagreement: {wrong}\n  {}, {statement}, lent {:?}, file {place}", case.name, case.size);
    }
}

/// What was asked.
pub struct Case<'a> {
    pub name: &'a str,
    pub file: &'a [u8],
    pub statement: Option<usize>,
    pub size: Size,
}
