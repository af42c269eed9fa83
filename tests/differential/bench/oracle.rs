//! The oracle, run as a program: the answers of metamath-rs 0.3.9 for a database.

use crate::bench::NUMBERS;
use std::collections::{HashMap, HashSet};
use std::path::{Path, PathBuf};
use std::process::Command;

pub struct Oracle {
    pub program: PathBuf,
}

/// The Rust's answer for one $p.
#[derive(Clone, Debug)]
pub struct Said {
    pub label: String,
    pub name: String,
    pub steps: u32,
    /// Bytes of its buffer and the greatest height of its stack.
    pub pool: usize,
    pub stack: usize,
    /// Places, where the proof is accepted.
    pub places: Option<usize>,
}

impl Said {
    /// Document 01's number of this name; nothing for `Panic`.
    pub fn number(&self) -> Option<u8> {
        NUMBERS.iter().find(|row| row.1 == self.name).map(|row| row.0)
    }
}

impl Oracle {
    /// What a command writes. The given exit codes are good ones.
    fn run(&self, words: &[&str], good: &[i32]) -> Vec<u8> {
        let run = Command::new(&self.program).args(words).output();
        let run = run.unwrap_or_else(|why| panic!("{}: {why}", self.program.display()));
        let code = run.status.code().unwrap_or(-1);
        if !good.contains(&code) {
            panic!("oracle {words:?} ended with {code}: {}", String::from_utf8_lossy(&run.stderr));
        }
        run.stdout
    }

    fn lines(&self, words: &[&str], good: &[i32]) -> Vec<Vec<String>> {
        let text = String::from_utf8(self.run(words, good)).expect("the oracle writes text");
        text.lines().map(|line| line.split(' ').map(str::to_owned).collect()).collect()
    }

    pub fn room(&self, database: &Path) -> Vec<Said> {
        let rows = self.lines(&["room", text(database)], &[0]);
        let said = |row: Vec<String>| Said {
            label: row[0].clone(),
            name: row[1].clone(),
            steps: row[2].parse().expect("steps"),
            pool: row[3].parse().expect("pool bytes"),
            stack: row[4].parse().expect("stack entries"),
            places: row[5].parse().ok(),
        };
        rows.into_iter().map(said).collect()
    }

    pub fn export(&self, database: &Path) -> Vec<u8> {
        self.run(&["export", text(database)], &[0])
    }

    /// The labels whose proofs are `turned`.
    pub fn turned(&self, database: &Path) -> HashSet<String> {
        let rows = self.lines(&["marked", text(database)], &[0]);
        rows.into_iter().filter(|row| row[1] == "turned").map(|row| row[0].clone()).collect()
    }

    /// The long forms of the accepted proofs by their labels; `TOOLONG` or `UNSOUND` for one that is not written.
    pub fn long_forms(&self, database: &Path) -> HashMap<String, String> {
        by_label(&String::from_utf8(self.run(&["longform", text(database)], &[0])).expect("the oracle writes text"))
    }

    /// What room the Rust needs for the long form of this proof; `made` is where the database with long forms is written.
    pub fn room_of_long(&self, database: &Path, label: &str, made: &Path) -> Option<Said> {
        let rewritten = self.run(&["rewrite", text(database), "--form", "long", "--limit", "65536"], &[0]);
        std::fs::write(made, rewritten).expect("a database can be written");
        self.room(made).into_iter().find(|said| said.label == label)
    }

    pub fn mutate(&self, database: &Path, seed: u64, count: usize, out: &Path) -> Vec<PathBuf> {
        let (seed, count) = (seed.to_string(), count.to_string());
        self.run(&["mutate", text(database), "--seed", &seed, "--count", &count, "--out", text(out)], &[0]);
        let entries = std::fs::read_dir(out).expect("the folder of mutants");
        let mut files: Vec<PathBuf> = entries.map(|entry| entry.expect("an entry").path()).collect();
        files.sort();
        files
    }

    /// For each file its number and place; 0 0 for a good one.
    pub fn framecheck(&self, files: &[PathBuf]) -> Vec<(u8, u32)> {
        let mut words = vec!["framecheck"];
        words.extend(files.iter().map(|file| text(file)));
        let verdict = |row: Vec<String>| {
            let at = row.iter().position(|word| word == "refused");
            at.map_or((0, 0), |at| (row[at + 1].parse().expect("a number"), row[at + 2].parse().expect("a place")))
        };
        self.lines(&words, &[0, 1]).into_iter().map(verdict).collect()
    }
}

pub fn text(path: &Path) -> &str {
    path.to_str().expect("a path of plain letters")
}

/// The stored answers of a corpus file: label, name, steps.
pub fn stored(path: &Path) -> Vec<(String, String, u32)> {
    let text = std::fs::read_to_string(path).unwrap_or_else(|why| panic!("{}: {why}", path.display()));
    let row = |line: &str| {
        let words: Vec<&str> = line.split(' ').collect();
        (words[0].to_owned(), words[1].to_owned(), words[2].parse().expect("steps"))
    };
    text.lines().map(row).collect()
}

/// The stored long forms of a corpus file.
pub fn stored_long(path: &Path) -> HashMap<String, String> {
    by_label(&std::fs::read_to_string(path).unwrap_or_else(|why| panic!("{}: {why}", path.display())))
}

/// Lines of a label, a colon, a space and a long form.
fn by_label(lines: &str) -> HashMap<String, String> {
    let row = |line: &str| line.split_once(": ").map(|(label, text)| (label.to_owned(), text.to_owned()));
    lines.lines().map(|line| row(line).expect("a label and a long form")).collect()
}
