//! The vectors: calls with lent sizes, and whole outputs of the program.

use crate::bench::Answer;
use crate::frame::provables;
use crate::guarded::{All, Lent, Size};
use crate::judge::show;
use crate::tally::{Case, Tally};
use std::path::Path;

pub fn read(path: &Path) -> Vec<u8> {
    std::fs::read(path).unwrap_or_else(|why| panic!("{}: {why}", path.display()))
}

/// What a line states of the proof's answer: number, place (nothing if only the proof's own length is meant), steps. A long form that is
/// written answers its own length; one that lacks room (60, 61) has an accepted proof.
fn stated(form: &str, answer: &str) -> (u8, Option<u32>, u32) {
    let numbers: Vec<u32> = answer.split(' ').map(|word| word.parse().expect("a number")).collect();
    let (number, place, steps) = (numbers[0] as u8, numbers[1], numbers[2]);
    match (form, number) {
        ("longform", 0) => (0, None, steps),
        ("longform", 60 | 61) => (0, Some(place), steps),
        _ => (number, Some(place), steps),
    }
}

/// The long form that a line states: its answer, what was written, and the memory.
fn long_form(lent: &mut Lent, file: &[u8], fields: &[&str], size: Size) -> Option<String> {
    let statement = fields[2].parse().expect("a number");
    match lent.long_form(file, statement, size, 0x6b) {
        Err(fault) => Some(fault),
        Ok((answer, text)) => {
            let same = show(answer) == fields[8] && text == fields[9].as_bytes();
            (!same).then(|| format!("answered {} {:?}, stated {} {:?}", show(answer), String::from_utf8_lossy(&text), fields[8], fields[9]))
        }
    }
}

/// One line of calls.tsv.
fn call(tally: &mut Tally, lent: &mut Lent, folder: &Path, line: &str) {
    let fields: Vec<&str> = line.split('\t').collect();
    let number = |ix: usize| fields[ix].parse::<usize>().expect("a number");
    let file = read(&folder.join(fields[0]));
    let size = Size::of(number(3), number(4), number(5)).with(number(6), number(7));
    let (due, place, steps) = stated(fields[1], fields[8]);
    let case = Case {
        name: fields[0],
        file: &file,
        statement: Some(number(2)),
        size,
    };
    let wrong = match lent.verify(&file, number(2), size, 0x99) {
        Err(fault) => Some(fault),
        Ok(answer) => {
            let length = || provables(&file).iter().find(|other| other.statement == number(2)).map(|found| found.text.len() as u32);
            let due = (due, place.or_else(length).unwrap_or(0), steps);
            ((answer.number, answer.place, answer.steps) != due).then(|| format!("answered {}, stated {due:?}", show(answer)))
        }
    };
    tally.count(wrong, &case);
    if fields[1] == "longform" {
        tally.count(long_form(lent, &file, &fields, size), &case);
    }
}

/// What the program writes for such answers.
fn output(file: &[u8], all: &All) -> String {
    match all {
        All::Refused(Answer { number, place, .. }) => format!("refused {number} {place}\n"),
        All::Checked(count, answers) => {
            let mut out = format!("checked {count}\n");
            for (provable, answer) in provables(file).iter().zip(answers) {
                out += &format!("{} {}\n", provable.label, show(*answer));
            }
            out
        }
    }
}

fn program(tally: &mut Tally, lent: &mut Lent, path: &Path) {
    let file = read(path);
    let due = String::from_utf8(read(&path.with_extension("expect"))).expect("text");
    let size = Size::greatest();
    let case = Case {
        name: path.to_str().unwrap_or(""),
        file: &file,
        statement: None,
        size,
    };
    let wrong = match lent.verify_all(&file, 4_096, size, 0x42) {
        _ if file.len() > 65_536 => (due != "refused 2 0\n").then(|| "a file too long for the program".to_owned()),
        Err(fault) => Some(fault),
        Ok(all) => {
            let found = output(&file, &all);
            (found != due).then(|| format!("answered {found:?}, stated {due:?}"))
        }
    };
    tally.count(wrong, &case);
}

pub fn run(tally: &mut Tally, lent: &mut Lent, vectors: &Path) {
    let folder = vectors.join("calls");
    let text = String::from_utf8(read(&folder.join("calls.tsv"))).expect("text");
    for line in text.lines() {
        call(tally, lent, &folder, line);
    }
    let long = text.lines().filter(|line| line.contains("\tlongform\t")).count();
    let plain = text.lines().count() - long;
    tally.part("vectors, calls", &format!("{plain} verify lines, {long} longform lines whole, and the proof's answer of these"));
    let entries = std::fs::read_dir(vectors.join("program")).expect("the folder of program vectors");
    let mut paths: Vec<_> = entries.map(|entry| entry.expect("an entry").path()).collect();
    paths.retain(|path| path.extension().is_some_and(|end| end == "frames"));
    paths.sort();
    for path in &paths {
        program(tally, lent, path);
    }
    tally.part("vectors, program", &format!("{} files", paths.len()));
}
